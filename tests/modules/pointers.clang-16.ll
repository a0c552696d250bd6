; ModuleID = 'pointers.c'
source_filename = "pointers.c"
target datalayout = "e-m:e-p270:32:32-p271:32:32-p272:64:64-i64:64-f80:128-n8:16:32:64-S128"
target triple = "x86_64-pc-linux-gnu"

@cells = internal global [8 x i32] [i32 3, i32 1, i32 4, i32 1, i32 5, i32 9, i32 2, i32 6], align 16
@tagged = internal global i64 0, align 8
@.str = private unnamed_addr constant [11 x i8] c"%ld %d %d\0A\00", align 1
@best = internal global ptr @cells, align 8
@.str.1 = private unnamed_addr constant [7 x i8] c"%d %d\0A\00", align 1

; Function Attrs: noinline nounwind optnone uwtable
define dso_local i32 @main() #0 {
  %1 = alloca i32, align 4
  %2 = alloca i64, align 8
  %3 = alloca ptr, align 8
  %4 = alloca ptr, align 8
  %5 = alloca ptr, align 8
  %6 = alloca ptr, align 8
  %7 = alloca i64, align 8
  %8 = alloca i32, align 4
  store i32 0, ptr %1, align 4
  store ptr @cells, ptr %4, align 8
  %9 = load ptr, ptr %4, align 8
  %10 = getelementptr inbounds i32, ptr %9, i64 4
  store ptr %10, ptr %5, align 8
  store ptr inttoptr (i64 2147418112 to ptr), ptr %6, align 8
  %11 = call i32 @pthread_create(ptr noundef %2, ptr noundef null, ptr noundef @find_greatest, ptr noundef null) #3
  %12 = load ptr, ptr %5, align 8
  store i32 0, ptr %12, align 4
  %13 = load i64, ptr %2, align 8
  %14 = call i32 @pthread_join(i64 noundef %13, ptr noundef %3)
  %15 = load ptr, ptr %3, align 8
  %16 = load ptr, ptr %4, align 8
  %17 = ptrtoint ptr %15 to i64
  %18 = ptrtoint ptr %16 to i64
  %19 = sub i64 %17, %18
  %20 = sdiv exact i64 %19, 4
  store i64 %20, ptr %7, align 8
  %21 = load i64, ptr @tagged, align 8
  %22 = and i64 %21, 1
  %23 = icmp ne i64 %22, 0
  %24 = zext i1 %23 to i64
  %25 = select i1 %23, i32 1, i32 0
  store i32 %25, ptr %8, align 4
  %26 = load i64, ptr %7, align 8
  %27 = load i32, ptr %8, align 4
  %28 = load i64, ptr @tagged, align 8
  %29 = call ptr @untagged(i64 noundef %28)
  %30 = load ptr, ptr @best, align 8
  %31 = icmp eq ptr %29, %30
  %32 = zext i1 %31 to i32
  %33 = call i32 (ptr, ...) @printf(ptr noundef @.str, i64 noundef %26, i32 noundef %27, i32 noundef %32)
  %34 = load ptr, ptr %5, align 8
  %35 = load ptr, ptr @best, align 8
  %36 = icmp ugt ptr %34, %35
  br i1 %36, label %37, label %40

37:                                               ; preds = %0
  %38 = load ptr, ptr %5, align 8
  %39 = icmp ne ptr %38, getelementptr (i8, ptr @cells, i64 32)
  br label %40

40:                                               ; preds = %37, %0
  %41 = phi i1 [ false, %0 ], [ %39, %37 ]
  %42 = zext i1 %41 to i32
  %43 = load ptr, ptr %6, align 8
  %44 = icmp eq ptr %43, null
  br i1 %44, label %49, label %45

45:                                               ; preds = %40
  %46 = load ptr, ptr @best, align 8
  %47 = load ptr, ptr %3, align 8
  %48 = icmp eq ptr %46, %47
  br label %49

49:                                               ; preds = %45, %40
  %50 = phi i1 [ true, %40 ], [ %48, %45 ]
  %51 = zext i1 %50 to i32
  %52 = call i32 (ptr, ...) @printf(ptr noundef @.str.1, i32 noundef %42, i32 noundef %51)
  %53 = load ptr, ptr @best, align 8
  %54 = load i32, ptr %53, align 4
  %55 = icmp eq i32 %54, 9
  %56 = zext i1 %55 to i64
  %57 = select i1 %55, i32 0, i32 1
  ret i32 %57
}

; Function Attrs: nounwind
declare i32 @pthread_create(ptr noundef, ptr noundef, ptr noundef, ptr noundef) #1

; Function Attrs: noinline nounwind optnone uwtable
define internal ptr @find_greatest(ptr noundef %0) #0 {
  %2 = alloca ptr, align 8
  %3 = alloca ptr, align 8
  store ptr %0, ptr %2, align 8
  store ptr @cells, ptr %3, align 8
  br label %4

4:                                                ; preds = %19, %1
  %5 = load ptr, ptr %3, align 8
  %6 = icmp ult ptr %5, getelementptr (i8, ptr @cells, i64 32)
  br i1 %6, label %7, label %22

7:                                                ; preds = %4
  %8 = load ptr, ptr %3, align 8
  %9 = load i32, ptr %8, align 4
  %10 = load ptr, ptr @best, align 8
  %11 = load i32, ptr %10, align 4
  %12 = icmp sgt i32 %9, %11
  br i1 %12, label %13, label %15

13:                                               ; preds = %7
  %14 = load ptr, ptr %3, align 8
  br label %17

15:                                               ; preds = %7
  %16 = load ptr, ptr @best, align 8
  br label %17

17:                                               ; preds = %15, %13
  %18 = phi ptr [ %14, %13 ], [ %16, %15 ]
  store ptr %18, ptr @best, align 8
  br label %19

19:                                               ; preds = %17
  %20 = load ptr, ptr %3, align 8
  %21 = getelementptr inbounds i32, ptr %20, i32 1
  store ptr %21, ptr %3, align 8
  br label %4, !llvm.loop !6

22:                                               ; preds = %4
  %23 = load ptr, ptr @best, align 8
  %24 = ptrtoint ptr %23 to i64
  %25 = or i64 %24, 1
  store i64 %25, ptr @tagged, align 8
  %26 = load ptr, ptr @best, align 8
  ret ptr %26
}

declare i32 @pthread_join(i64 noundef, ptr noundef) #2

declare i32 @printf(ptr noundef, ...) #2

; Function Attrs: noinline nounwind optnone uwtable
define internal ptr @untagged(i64 noundef %0) #0 {
  %2 = alloca i64, align 8
  store i64 %0, ptr %2, align 8
  %3 = load i64, ptr %2, align 8
  %4 = and i64 %3, -2
  %5 = inttoptr i64 %4 to ptr
  ret ptr %5
}

attributes #0 = { noinline nounwind optnone uwtable "frame-pointer"="all" "min-legal-vector-width"="0" "no-trapping-math"="true" "stack-protector-buffer-size"="8" "target-cpu"="x86-64" "target-features"="+cx8,+fxsr,+mmx,+sse,+sse2,+x87" "tune-cpu"="generic" }
attributes #1 = { nounwind "frame-pointer"="all" "no-trapping-math"="true" "stack-protector-buffer-size"="8" "target-cpu"="x86-64" "target-features"="+cx8,+fxsr,+mmx,+sse,+sse2,+x87" "tune-cpu"="generic" }
attributes #2 = { "frame-pointer"="all" "no-trapping-math"="true" "stack-protector-buffer-size"="8" "target-cpu"="x86-64" "target-features"="+cx8,+fxsr,+mmx,+sse,+sse2,+x87" "tune-cpu"="generic" }
attributes #3 = { nounwind }

!llvm.module.flags = !{!0, !1, !2, !3, !4}
!llvm.ident = !{!5}

!0 = !{i32 1, !"wchar_size", i32 4}
!1 = !{i32 8, !"PIC Level", i32 2}
!2 = !{i32 7, !"PIE Level", i32 2}
!3 = !{i32 7, !"uwtable", i32 2}
!4 = !{i32 7, !"frame-pointer", i32 2}
!5 = !{!"Debian clang version 16.0.6 (15~deb12u1)"}
!6 = distinct !{!6, !7}
!7 = !{!"llvm.loop.mustprogress"}
