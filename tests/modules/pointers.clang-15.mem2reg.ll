; ModuleID = '<stdin>'
source_filename = "pointers.c"
target datalayout = "e-m:e-p270:32:32-p271:32:32-p272:64:64-i64:64-f80:128-n8:16:32:64-S128"
target triple = "x86_64-pc-linux-gnu"

@cells = internal global [8 x i32] [i32 3, i32 1, i32 4, i32 1, i32 5, i32 9, i32 2, i32 6], align 16
@tagged = internal global i64 0, align 8
@.str = private unnamed_addr constant [11 x i8] c"%ld %d %d\0A\00", align 1
@best = internal global ptr @cells, align 8
@.str.1 = private unnamed_addr constant [7 x i8] c"%d %d\0A\00", align 1

; Function Attrs: noinline nounwind uwtable
define dso_local i32 @main() #0 {
  %1 = alloca i64, align 8
  %2 = alloca ptr, align 8
  %3 = getelementptr inbounds i32, ptr @cells, i64 4
  %4 = call i32 @pthread_create(ptr noundef %1, ptr noundef null, ptr noundef @find_greatest, ptr noundef null) #3
  store i32 0, ptr %3, align 4
  %5 = load i64, ptr %1, align 8
  %6 = call i32 @pthread_join(i64 noundef %5, ptr noundef %2)
  %7 = load ptr, ptr %2, align 8
  %8 = ptrtoint ptr %7 to i64
  %9 = ptrtoint ptr @cells to i64
  %10 = sub i64 %8, %9
  %11 = sdiv exact i64 %10, 4
  %12 = load i64, ptr @tagged, align 8
  %13 = and i64 %12, 1
  %14 = icmp ne i64 %13, 0
  %15 = zext i1 %14 to i64
  %16 = select i1 %14, i32 1, i32 0
  %17 = load i64, ptr @tagged, align 8
  %18 = call ptr @untagged(i64 noundef %17)
  %19 = load ptr, ptr @best, align 8
  %20 = icmp eq ptr %18, %19
  %21 = zext i1 %20 to i32
  %22 = call i32 (ptr, ...) @printf(ptr noundef @.str, i64 noundef %11, i32 noundef %16, i32 noundef %21)
  %23 = load ptr, ptr @best, align 8
  %24 = icmp ugt ptr %3, %23
  br i1 %24, label %25, label %27

25:                                               ; preds = %0
  %26 = icmp ne ptr %3, getelementptr (i8, ptr @cells, i64 32)
  br label %27

27:                                               ; preds = %25, %0
  %28 = phi i1 [ false, %0 ], [ %26, %25 ]
  %29 = zext i1 %28 to i32
  %30 = icmp eq ptr inttoptr (i64 2147418112 to ptr), null
  br i1 %30, label %35, label %31

31:                                               ; preds = %27
  %32 = load ptr, ptr @best, align 8
  %33 = load ptr, ptr %2, align 8
  %34 = icmp eq ptr %32, %33
  br label %35

35:                                               ; preds = %31, %27
  %36 = phi i1 [ true, %27 ], [ %34, %31 ]
  %37 = zext i1 %36 to i32
  %38 = call i32 (ptr, ...) @printf(ptr noundef @.str.1, i32 noundef %29, i32 noundef %37)
  %39 = load ptr, ptr @best, align 8
  %40 = load i32, ptr %39, align 4
  %41 = icmp eq i32 %40, 9
  %42 = zext i1 %41 to i64
  %43 = select i1 %41, i32 0, i32 1
  ret i32 %43
}

; Function Attrs: nounwind
declare i32 @pthread_create(ptr noundef, ptr noundef, ptr noundef, ptr noundef) #1

; Function Attrs: noinline nounwind uwtable
define internal ptr @find_greatest(ptr noundef %0) #0 {
  br label %2

2:                                                ; preds = %14, %1
  %.0 = phi ptr [ @cells, %1 ], [ %15, %14 ]
  %3 = icmp ult ptr %.0, getelementptr (i8, ptr @cells, i64 32)
  br i1 %3, label %4, label %16

4:                                                ; preds = %2
  %5 = load i32, ptr %.0, align 4
  %6 = load ptr, ptr @best, align 8
  %7 = load i32, ptr %6, align 4
  %8 = icmp sgt i32 %5, %7
  br i1 %8, label %9, label %10

9:                                                ; preds = %4
  br label %12

10:                                               ; preds = %4
  %11 = load ptr, ptr @best, align 8
  br label %12

12:                                               ; preds = %10, %9
  %13 = phi ptr [ %.0, %9 ], [ %11, %10 ]
  store ptr %13, ptr @best, align 8
  br label %14

14:                                               ; preds = %12
  %15 = getelementptr inbounds i32, ptr %.0, i32 1
  br label %2, !llvm.loop !6

16:                                               ; preds = %2
  %17 = load ptr, ptr @best, align 8
  %18 = ptrtoint ptr %17 to i64
  %19 = or i64 %18, 1
  store i64 %19, ptr @tagged, align 8
  %20 = load ptr, ptr @best, align 8
  ret ptr %20
}

declare i32 @pthread_join(i64 noundef, ptr noundef) #2

declare i32 @printf(ptr noundef, ...) #2

; Function Attrs: noinline nounwind uwtable
define internal ptr @untagged(i64 noundef %0) #0 {
  %2 = and i64 %0, -2
  %3 = inttoptr i64 %2 to ptr
  ret ptr %3
}

attributes #0 = { noinline nounwind uwtable "frame-pointer"="all" "min-legal-vector-width"="0" "no-trapping-math"="true" "stack-protector-buffer-size"="8" "target-cpu"="x86-64" "target-features"="+cx8,+fxsr,+mmx,+sse,+sse2,+x87" "tune-cpu"="generic" }
attributes #1 = { nounwind "frame-pointer"="all" "no-trapping-math"="true" "stack-protector-buffer-size"="8" "target-cpu"="x86-64" "target-features"="+cx8,+fxsr,+mmx,+sse,+sse2,+x87" "tune-cpu"="generic" }
attributes #2 = { "frame-pointer"="all" "no-trapping-math"="true" "stack-protector-buffer-size"="8" "target-cpu"="x86-64" "target-features"="+cx8,+fxsr,+mmx,+sse,+sse2,+x87" "tune-cpu"="generic" }
attributes #3 = { nounwind }

!llvm.module.flags = !{!0, !1, !2, !3, !4}
!llvm.ident = !{!5}

!0 = !{i32 1, !"wchar_size", i32 4}
!1 = !{i32 7, !"PIC Level", i32 2}
!2 = !{i32 7, !"PIE Level", i32 2}
!3 = !{i32 7, !"uwtable", i32 2}
!4 = !{i32 7, !"frame-pointer", i32 2}
!5 = !{!"Debian clang version 15.0.6"}
!6 = distinct !{!6, !7}
!7 = !{!"llvm.loop.mustprogress"}
