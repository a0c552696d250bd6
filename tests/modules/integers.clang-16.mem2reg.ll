; ModuleID = '<stdin>'
source_filename = "integers.c"
target datalayout = "e-m:e-p270:32:32-p271:32:32-p272:64:64-i64:64-f80:128-n8:16:32:64-S128"
target triple = "x86_64-pc-linux-gnu"

@divisor = internal global i32 7, align 4
@.str = private unnamed_addr constant [13 x i8] c"%d %i %u %u\0A\00", align 1
@.str.1 = private unnamed_addr constant [13 x i8] c"%ld %lu %lx\0A\00", align 1
@mixed = internal global i64 0, align 8
@.str.2 = private unnamed_addr constant [10 x i8] c"%d %d %d\0A\00", align 1
@.str.3 = private unnamed_addr constant [8 x i8] c"%d%d%d\0A\00", align 1

; Function Attrs: noinline nounwind uwtable
define dso_local i32 @main() #0 {
  %1 = alloca i64, align 8
  %2 = alloca i32, align 4
  %3 = call signext i8 @rc_input_i8(i32 noundef 0)
  %4 = call signext i16 @rc_input_i16(i32 noundef 1)
  %5 = call i32 @rc_input_i32(i32 noundef 2)
  store i32 %5, ptr %2, align 4
  %6 = call i64 @rc_input_i64(i32 noundef 3)
  %7 = sext i8 %3 to i32
  %8 = add nsw i32 %7, 200
  %9 = trunc i32 %8 to i8
  %10 = zext i16 %4 to i32
  %11 = udiv i32 %10, 3
  %12 = trunc i32 %11 to i16
  %13 = call i32 @pthread_create(ptr noundef %1, ptr noundef null, ptr noundef @divide, ptr noundef %2) #3
  %14 = sext i8 %3 to i32
  %15 = call i32 @clamp(i32 noundef %14, i32 noundef 1, i32 noundef 9)
  store i32 %15, ptr @divisor, align 4
  %16 = load i64, ptr %1, align 8
  %17 = call i32 @pthread_join(i64 noundef %16, ptr noundef null)
  %18 = sext i8 %3 to i32
  %19 = sext i16 %4 to i32
  %20 = zext i8 %9 to i32
  %21 = zext i16 %12 to i32
  %22 = call i32 (ptr, ...) @printf(ptr noundef @.str, i32 noundef %18, i32 noundef %19, i32 noundef %20, i32 noundef %21)
  %23 = ashr i64 %6, 3
  %24 = udiv i64 %6, 10
  %25 = load i64, ptr @mixed, align 8
  %26 = call i32 (ptr, ...) @printf(ptr noundef @.str.1, i64 noundef %23, i64 noundef %24, i64 noundef %25)
  %27 = load i32, ptr %2, align 4
  %28 = load i32, ptr %2, align 4
  %29 = xor i32 %28, -1
  %30 = and i32 %29, 255
  %31 = load i32, ptr %2, align 4
  %32 = xor i32 %31, -1
  %33 = or i32 %32, 1
  %34 = call i32 (ptr, ...) @printf(ptr noundef @.str.2, i32 noundef %27, i32 noundef %30, i32 noundef %33)
  %35 = sext i8 %3 to i32
  %36 = zext i8 %9 to i32
  %37 = icmp slt i32 %35, %36
  %38 = zext i1 %37 to i32
  %39 = load i64, ptr @mixed, align 8
  %40 = icmp ugt i64 %6, %39
  %41 = zext i1 %40 to i32
  %42 = sext i16 %4 to i32
  %43 = load i32, ptr %2, align 4
  %44 = icmp sge i32 %42, %43
  %45 = zext i1 %44 to i32
  %46 = call i32 (ptr, ...) @printf(ptr noundef @.str.3, i32 noundef %38, i32 noundef %41, i32 noundef %45)
  %47 = icmp slt i64 %6, 0
  %48 = zext i1 %47 to i32
  %49 = sext i8 %3 to i32
  %50 = and i32 %49, 3
  %51 = shl i32 %48, %50
  ret i32 %51
}

declare signext i8 @rc_input_i8(i32 noundef) #1

declare signext i16 @rc_input_i16(i32 noundef) #1

declare i32 @rc_input_i32(i32 noundef) #1

declare i64 @rc_input_i64(i32 noundef) #1

; Function Attrs: nounwind
declare i32 @pthread_create(ptr noundef, ptr noundef, ptr noundef, ptr noundef) #2

; Function Attrs: noinline nounwind uwtable
define internal ptr @divide(ptr noundef %0) #0 {
  %2 = load i32, ptr %0, align 4
  %3 = load i32, ptr @divisor, align 4
  %4 = sdiv i32 %2, %3
  %5 = load i32, ptr %0, align 4
  %6 = load i32, ptr @divisor, align 4
  %7 = srem i32 %5, %6
  %8 = add nsw i32 %4, %7
  store i32 %8, ptr %0, align 4
  %9 = load i32, ptr %0, align 4
  %10 = zext i32 %9 to i64
  %11 = call i64 @mix(i64 noundef %10)
  store i64 %11, ptr @mixed, align 8
  ret ptr null
}

; Function Attrs: noinline nounwind uwtable
define internal i32 @clamp(i32 noundef %0, i32 noundef %1, i32 noundef %2) #0 {
  %4 = icmp slt i32 %0, %1
  br i1 %4, label %5, label %6

5:                                                ; preds = %3
  br label %12

6:                                                ; preds = %3
  %7 = icmp sgt i32 %0, %2
  br i1 %7, label %8, label %9

8:                                                ; preds = %6
  br label %10

9:                                                ; preds = %6
  br label %10

10:                                               ; preds = %9, %8
  %11 = phi i32 [ %2, %8 ], [ %0, %9 ]
  br label %12

12:                                               ; preds = %10, %5
  %13 = phi i32 [ %1, %5 ], [ %11, %10 ]
  ret i32 %13
}

declare i32 @pthread_join(i64 noundef, ptr noundef) #1

declare i32 @printf(ptr noundef, ...) #1

; Function Attrs: noinline nounwind uwtable
define internal i64 @mix(i64 noundef %0) #0 {
  %2 = shl i64 %0, 13
  %3 = xor i64 %0, %2
  %4 = lshr i64 %3, 7
  %5 = xor i64 %3, %4
  %6 = shl i64 %5, 17
  %7 = xor i64 %5, %6
  ret i64 %7
}

attributes #0 = { noinline nounwind uwtable "frame-pointer"="all" "min-legal-vector-width"="0" "no-trapping-math"="true" "stack-protector-buffer-size"="8" "target-cpu"="x86-64" "target-features"="+cx8,+fxsr,+mmx,+sse,+sse2,+x87" "tune-cpu"="generic" }
attributes #1 = { "frame-pointer"="all" "no-trapping-math"="true" "stack-protector-buffer-size"="8" "target-cpu"="x86-64" "target-features"="+cx8,+fxsr,+mmx,+sse,+sse2,+x87" "tune-cpu"="generic" }
attributes #2 = { nounwind "frame-pointer"="all" "no-trapping-math"="true" "stack-protector-buffer-size"="8" "target-cpu"="x86-64" "target-features"="+cx8,+fxsr,+mmx,+sse,+sse2,+x87" "tune-cpu"="generic" }
attributes #3 = { nounwind }

!llvm.module.flags = !{!0, !1, !2, !3, !4}
!llvm.ident = !{!5}

!0 = !{i32 1, !"wchar_size", i32 4}
!1 = !{i32 8, !"PIC Level", i32 2}
!2 = !{i32 7, !"PIE Level", i32 2}
!3 = !{i32 7, !"uwtable", i32 2}
!4 = !{i32 7, !"frame-pointer", i32 2}
!5 = !{!"Debian clang version 16.0.6 (15~deb12u1)"}
