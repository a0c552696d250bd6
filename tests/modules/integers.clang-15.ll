; ModuleID = 'integers.c'
source_filename = "integers.c"
target datalayout = "e-m:e-p270:32:32-p271:32:32-p272:64:64-i64:64-f80:128-n8:16:32:64-S128"
target triple = "x86_64-pc-linux-gnu"

@divisor = internal global i32 7, align 4
@.str = private unnamed_addr constant [13 x i8] c"%d %i %u %u\0A\00", align 1
@.str.1 = private unnamed_addr constant [13 x i8] c"%ld %lu %lx\0A\00", align 1
@mixed = internal global i64 0, align 8
@.str.2 = private unnamed_addr constant [10 x i8] c"%d %d %d\0A\00", align 1
@.str.3 = private unnamed_addr constant [8 x i8] c"%d%d%d\0A\00", align 1

; Function Attrs: noinline nounwind optnone uwtable
define dso_local i32 @main() #0 {
  %1 = alloca i32, align 4
  %2 = alloca i64, align 8
  %3 = alloca i8, align 1
  %4 = alloca i16, align 2
  %5 = alloca i32, align 4
  %6 = alloca i64, align 8
  %7 = alloca i8, align 1
  %8 = alloca i16, align 2
  store i32 0, ptr %1, align 4
  %9 = call signext i8 @rc_input_i8(i32 noundef 0)
  store i8 %9, ptr %3, align 1
  %10 = call signext i16 @rc_input_i16(i32 noundef 1)
  store i16 %10, ptr %4, align 2
  %11 = call i32 @rc_input_i32(i32 noundef 2)
  store i32 %11, ptr %5, align 4
  %12 = call i64 @rc_input_i64(i32 noundef 3)
  store i64 %12, ptr %6, align 8
  %13 = load i8, ptr %3, align 1
  %14 = sext i8 %13 to i32
  %15 = add nsw i32 %14, 200
  %16 = trunc i32 %15 to i8
  store i8 %16, ptr %7, align 1
  %17 = load i16, ptr %4, align 2
  %18 = zext i16 %17 to i32
  %19 = udiv i32 %18, 3
  %20 = trunc i32 %19 to i16
  store i16 %20, ptr %8, align 2
  %21 = call i32 @pthread_create(ptr noundef %2, ptr noundef null, ptr noundef @divide, ptr noundef %5) #3
  %22 = load i8, ptr %3, align 1
  %23 = sext i8 %22 to i32
  %24 = call i32 @clamp(i32 noundef %23, i32 noundef 1, i32 noundef 9)
  store i32 %24, ptr @divisor, align 4
  %25 = load i64, ptr %2, align 8
  %26 = call i32 @pthread_join(i64 noundef %25, ptr noundef null)
  %27 = load i8, ptr %3, align 1
  %28 = sext i8 %27 to i32
  %29 = load i16, ptr %4, align 2
  %30 = sext i16 %29 to i32
  %31 = load i8, ptr %7, align 1
  %32 = zext i8 %31 to i32
  %33 = load i16, ptr %8, align 2
  %34 = zext i16 %33 to i32
  %35 = call i32 (ptr, ...) @printf(ptr noundef @.str, i32 noundef %28, i32 noundef %30, i32 noundef %32, i32 noundef %34)
  %36 = load i64, ptr %6, align 8
  %37 = ashr i64 %36, 3
  %38 = load i64, ptr %6, align 8
  %39 = udiv i64 %38, 10
  %40 = load i64, ptr @mixed, align 8
  %41 = call i32 (ptr, ...) @printf(ptr noundef @.str.1, i64 noundef %37, i64 noundef %39, i64 noundef %40)
  %42 = load i32, ptr %5, align 4
  %43 = load i32, ptr %5, align 4
  %44 = xor i32 %43, -1
  %45 = and i32 %44, 255
  %46 = load i32, ptr %5, align 4
  %47 = xor i32 %46, -1
  %48 = or i32 %47, 1
  %49 = call i32 (ptr, ...) @printf(ptr noundef @.str.2, i32 noundef %42, i32 noundef %45, i32 noundef %48)
  %50 = load i8, ptr %3, align 1
  %51 = sext i8 %50 to i32
  %52 = load i8, ptr %7, align 1
  %53 = zext i8 %52 to i32
  %54 = icmp slt i32 %51, %53
  %55 = zext i1 %54 to i32
  %56 = load i64, ptr %6, align 8
  %57 = load i64, ptr @mixed, align 8
  %58 = icmp ugt i64 %56, %57
  %59 = zext i1 %58 to i32
  %60 = load i16, ptr %4, align 2
  %61 = sext i16 %60 to i32
  %62 = load i32, ptr %5, align 4
  %63 = icmp sge i32 %61, %62
  %64 = zext i1 %63 to i32
  %65 = call i32 (ptr, ...) @printf(ptr noundef @.str.3, i32 noundef %55, i32 noundef %59, i32 noundef %64)
  %66 = load i64, ptr %6, align 8
  %67 = icmp slt i64 %66, 0
  %68 = zext i1 %67 to i32
  %69 = load i8, ptr %3, align 1
  %70 = sext i8 %69 to i32
  %71 = and i32 %70, 3
  %72 = shl i32 %68, %71
  ret i32 %72
}

declare signext i8 @rc_input_i8(i32 noundef) #1

declare signext i16 @rc_input_i16(i32 noundef) #1

declare i32 @rc_input_i32(i32 noundef) #1

declare i64 @rc_input_i64(i32 noundef) #1

; Function Attrs: nounwind
declare i32 @pthread_create(ptr noundef, ptr noundef, ptr noundef, ptr noundef) #2

; Function Attrs: noinline nounwind optnone uwtable
define internal ptr @divide(ptr noundef %0) #0 {
  %2 = alloca ptr, align 8
  %3 = alloca ptr, align 8
  store ptr %0, ptr %2, align 8
  %4 = load ptr, ptr %2, align 8
  store ptr %4, ptr %3, align 8
  %5 = load ptr, ptr %3, align 8
  %6 = load i32, ptr %5, align 4
  %7 = load i32, ptr @divisor, align 4
  %8 = sdiv i32 %6, %7
  %9 = load ptr, ptr %3, align 8
  %10 = load i32, ptr %9, align 4
  %11 = load i32, ptr @divisor, align 4
  %12 = srem i32 %10, %11
  %13 = add nsw i32 %8, %12
  %14 = load ptr, ptr %3, align 8
  store i32 %13, ptr %14, align 4
  %15 = load ptr, ptr %3, align 8
  %16 = load i32, ptr %15, align 4
  %17 = zext i32 %16 to i64
  %18 = call i64 @mix(i64 noundef %17)
  store i64 %18, ptr @mixed, align 8
  ret ptr null
}

; Function Attrs: noinline nounwind optnone uwtable
define internal i32 @clamp(i32 noundef %0, i32 noundef %1, i32 noundef %2) #0 {
  %4 = alloca i32, align 4
  %5 = alloca i32, align 4
  %6 = alloca i32, align 4
  store i32 %0, ptr %4, align 4
  store i32 %1, ptr %5, align 4
  store i32 %2, ptr %6, align 4
  %7 = load i32, ptr %4, align 4
  %8 = load i32, ptr %5, align 4
  %9 = icmp slt i32 %7, %8
  br i1 %9, label %10, label %12

10:                                               ; preds = %3
  %11 = load i32, ptr %5, align 4
  br label %22

12:                                               ; preds = %3
  %13 = load i32, ptr %4, align 4
  %14 = load i32, ptr %6, align 4
  %15 = icmp sgt i32 %13, %14
  br i1 %15, label %16, label %18

16:                                               ; preds = %12
  %17 = load i32, ptr %6, align 4
  br label %20

18:                                               ; preds = %12
  %19 = load i32, ptr %4, align 4
  br label %20

20:                                               ; preds = %18, %16
  %21 = phi i32 [ %17, %16 ], [ %19, %18 ]
  br label %22

22:                                               ; preds = %20, %10
  %23 = phi i32 [ %11, %10 ], [ %21, %20 ]
  ret i32 %23
}

declare i32 @pthread_join(i64 noundef, ptr noundef) #1

declare i32 @printf(ptr noundef, ...) #1

; Function Attrs: noinline nounwind optnone uwtable
define internal i64 @mix(i64 noundef %0) #0 {
  %2 = alloca i64, align 8
  store i64 %0, ptr %2, align 8
  %3 = load i64, ptr %2, align 8
  %4 = shl i64 %3, 13
  %5 = load i64, ptr %2, align 8
  %6 = xor i64 %5, %4
  store i64 %6, ptr %2, align 8
  %7 = load i64, ptr %2, align 8
  %8 = lshr i64 %7, 7
  %9 = load i64, ptr %2, align 8
  %10 = xor i64 %9, %8
  store i64 %10, ptr %2, align 8
  %11 = load i64, ptr %2, align 8
  %12 = load i64, ptr %2, align 8
  %13 = shl i64 %12, 17
  %14 = xor i64 %11, %13
  ret i64 %14
}

attributes #0 = { noinline nounwind optnone uwtable "frame-pointer"="all" "min-legal-vector-width"="0" "no-trapping-math"="true" "stack-protector-buffer-size"="8" "target-cpu"="x86-64" "target-features"="+cx8,+fxsr,+mmx,+sse,+sse2,+x87" "tune-cpu"="generic" }
attributes #1 = { "frame-pointer"="all" "no-trapping-math"="true" "stack-protector-buffer-size"="8" "target-cpu"="x86-64" "target-features"="+cx8,+fxsr,+mmx,+sse,+sse2,+x87" "tune-cpu"="generic" }
attributes #2 = { nounwind "frame-pointer"="all" "no-trapping-math"="true" "stack-protector-buffer-size"="8" "target-cpu"="x86-64" "target-features"="+cx8,+fxsr,+mmx,+sse,+sse2,+x87" "tune-cpu"="generic" }
attributes #3 = { nounwind }

!llvm.module.flags = !{!0, !1, !2, !3, !4}
!llvm.ident = !{!5}

!0 = !{i32 1, !"wchar_size", i32 4}
!1 = !{i32 7, !"PIC Level", i32 2}
!2 = !{i32 7, !"PIE Level", i32 2}
!3 = !{i32 7, !"uwtable", i32 2}
!4 = !{i32 7, !"frame-pointer", i32 2}
!5 = !{!"Debian clang version 15.0.6"}
