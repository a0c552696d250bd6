; ModuleID = 'counter_locked.c'
source_filename = "counter_locked.c"
target datalayout = "e-m:e-p270:32:32-p271:32:32-p272:64:64-i64:64-f80:128-n8:16:32:64-S128"
target triple = "x86_64-pc-linux-gnu"

%struct.counter = type { %union.pthread_mutex_t, i64, i32 }
%union.pthread_mutex_t = type { %struct.__pthread_mutex_s }
%struct.__pthread_mutex_s = type { i32, i32, i32, i32, i32, i16, i16, %struct.__pthread_internal_list }
%struct.__pthread_internal_list = type { ptr, ptr }

@total = internal global %struct.counter zeroinitializer, align 8
@.str = private unnamed_addr constant [9 x i8] c"%ld %ld\0A\00", align 1
@last_lock = internal global %union.pthread_mutex_t zeroinitializer, align 8
@last = internal global i64 0, align 8

; Function Attrs: noinline nounwind optnone uwtable
define dso_local i32 @main() #0 {
  %1 = alloca i32, align 4
  %2 = alloca [4 x i64], align 16
  %3 = alloca i64, align 8
  %4 = alloca i64, align 8
  %5 = alloca i64, align 8
  %6 = alloca ptr, align 8
  store i32 0, ptr %1, align 4
  store i64 0, ptr %3, align 8
  %7 = call i32 @pthread_mutex_init(ptr noundef @total, ptr noundef null) #3
  store i64 0, ptr %4, align 8
  br label %8

8:                                                ; preds = %18, %0
  %9 = load i64, ptr %4, align 8
  %10 = icmp slt i64 %9, 4
  br i1 %10, label %11, label %21

11:                                               ; preds = %8
  %12 = load i64, ptr %4, align 8
  %13 = getelementptr inbounds [4 x i64], ptr %2, i64 0, i64 %12
  %14 = load i64, ptr %4, align 8
  %15 = add nsw i64 %14, 1
  %16 = inttoptr i64 %15 to ptr
  %17 = call i32 @pthread_create(ptr noundef %13, ptr noundef null, ptr noundef @work, ptr noundef %16) #3
  br label %18

18:                                               ; preds = %11
  %19 = load i64, ptr %4, align 8
  %20 = add nsw i64 %19, 1
  store i64 %20, ptr %4, align 8
  br label %8, !llvm.loop !6

21:                                               ; preds = %8
  store i64 0, ptr %5, align 8
  br label %22

22:                                               ; preds = %34, %21
  %23 = load i64, ptr %5, align 8
  %24 = icmp slt i64 %23, 4
  br i1 %24, label %25, label %37

25:                                               ; preds = %22
  %26 = load i64, ptr %5, align 8
  %27 = getelementptr inbounds [4 x i64], ptr %2, i64 0, i64 %26
  %28 = load i64, ptr %27, align 8
  %29 = call i32 @pthread_join(i64 noundef %28, ptr noundef %6)
  %30 = load ptr, ptr %6, align 8
  %31 = ptrtoint ptr %30 to i64
  %32 = load i64, ptr %3, align 8
  %33 = add nsw i64 %32, %31
  store i64 %33, ptr %3, align 8
  br label %34

34:                                               ; preds = %25
  %35 = load i64, ptr %5, align 8
  %36 = add nsw i64 %35, 1
  store i64 %36, ptr %5, align 8
  br label %22, !llvm.loop !8

37:                                               ; preds = %22
  %38 = call i32 @pthread_mutex_destroy(ptr noundef @total) #3
  %39 = load i64, ptr getelementptr inbounds (%struct.counter, ptr @total, i32 0, i32 1), align 8
  %40 = load i64, ptr %3, align 8
  %41 = call i32 (ptr, ...) @printf(ptr noundef @.str, i64 noundef %39, i64 noundef %40)
  ret i32 0
}

; Function Attrs: nounwind
declare i32 @pthread_mutex_init(ptr noundef, ptr noundef) #1

; Function Attrs: nounwind
declare i32 @pthread_create(ptr noundef, ptr noundef, ptr noundef, ptr noundef) #1

; Function Attrs: noinline nounwind optnone uwtable
define internal ptr @work(ptr noundef %0) #0 {
  %2 = alloca ptr, align 8
  %3 = alloca i64, align 8
  %4 = alloca i32, align 4
  store ptr %0, ptr %2, align 8
  %5 = load ptr, ptr %2, align 8
  %6 = ptrtoint ptr %5 to i64
  store i64 %6, ptr %3, align 8
  store i32 0, ptr %4, align 4
  br label %7

7:                                                ; preds = %12, %1
  %8 = load i32, ptr %4, align 4
  %9 = icmp slt i32 %8, 3
  br i1 %9, label %10, label %15

10:                                               ; preds = %7
  %11 = load i64, ptr %3, align 8
  call void @add(ptr noundef @total, i64 noundef %11)
  br label %12

12:                                               ; preds = %10
  %13 = load i32, ptr %4, align 4
  %14 = add nsw i32 %13, 1
  store i32 %14, ptr %4, align 4
  br label %7, !llvm.loop !9

15:                                               ; preds = %7
  %16 = call i32 @pthread_mutex_lock(ptr noundef @last_lock) #3
  %17 = load i64, ptr %3, align 8
  store i64 %17, ptr @last, align 8
  %18 = call i32 @pthread_mutex_unlock(ptr noundef @last_lock) #3
  %19 = load i64, ptr %3, align 8
  %20 = mul nsw i64 %19, 2
  %21 = inttoptr i64 %20 to ptr
  ret ptr %21
}

declare i32 @pthread_join(i64 noundef, ptr noundef) #2

; Function Attrs: nounwind
declare i32 @pthread_mutex_destroy(ptr noundef) #1

declare i32 @printf(ptr noundef, ...) #2

; Function Attrs: noinline nounwind optnone uwtable
define internal void @add(ptr noundef %0, i64 noundef %1) #0 {
  %3 = alloca ptr, align 8
  %4 = alloca i64, align 8
  store ptr %0, ptr %3, align 8
  store i64 %1, ptr %4, align 8
  %5 = load ptr, ptr %3, align 8
  %6 = getelementptr inbounds %struct.counter, ptr %5, i32 0, i32 0
  %7 = call i32 @pthread_mutex_trylock(ptr noundef %6) #3
  %8 = icmp ne i32 %7, 0
  br i1 %8, label %9, label %17

9:                                                ; preds = %2
  %10 = load ptr, ptr %3, align 8
  %11 = getelementptr inbounds %struct.counter, ptr %10, i32 0, i32 0
  %12 = call i32 @pthread_mutex_lock(ptr noundef %11) #3
  %13 = load ptr, ptr %3, align 8
  %14 = getelementptr inbounds %struct.counter, ptr %13, i32 0, i32 2
  %15 = load i32, ptr %14, align 8
  %16 = add nsw i32 %15, 1
  store i32 %16, ptr %14, align 8
  br label %17

17:                                               ; preds = %9, %2
  %18 = load i64, ptr %4, align 8
  %19 = load ptr, ptr %3, align 8
  %20 = getelementptr inbounds %struct.counter, ptr %19, i32 0, i32 1
  %21 = load i64, ptr %20, align 8
  %22 = add nsw i64 %21, %18
  store i64 %22, ptr %20, align 8
  %23 = load ptr, ptr %3, align 8
  %24 = getelementptr inbounds %struct.counter, ptr %23, i32 0, i32 0
  %25 = call i32 @pthread_mutex_unlock(ptr noundef %24) #3
  ret void
}

; Function Attrs: nounwind
declare i32 @pthread_mutex_lock(ptr noundef) #1

; Function Attrs: nounwind
declare i32 @pthread_mutex_unlock(ptr noundef) #1

; Function Attrs: nounwind
declare i32 @pthread_mutex_trylock(ptr noundef) #1

attributes #0 = { noinline nounwind optnone uwtable "frame-pointer"="all" "min-legal-vector-width"="0" "no-trapping-math"="true" "stack-protector-buffer-size"="8" "target-cpu"="x86-64" "target-features"="+cx8,+fxsr,+mmx,+sse,+sse2,+x87" "tune-cpu"="generic" }
attributes #1 = { nounwind "frame-pointer"="all" "no-trapping-math"="true" "stack-protector-buffer-size"="8" "target-cpu"="x86-64" "target-features"="+cx8,+fxsr,+mmx,+sse,+sse2,+x87" "tune-cpu"="generic" }
attributes #2 = { "frame-pointer"="all" "no-trapping-math"="true" "stack-protector-buffer-size"="8" "target-cpu"="x86-64" "target-features"="+cx8,+fxsr,+mmx,+sse,+sse2,+x87" "tune-cpu"="generic" }
attributes #3 = { nounwind }

!llvm.module.flags = !{!0, !1, !2, !3, !4}
!llvm.ident = !{!5}

!0 = !{i32 1, !"wchar_size", i32 4}
!1 = !{i32 8, !"PIC Level", i32 2}
!2 = !{i32 7, !"PIE Level", i32 2}
!3 = !{i32 7, !"uwtable", i32 2}
!4 = !{i32 7, !"frame-pointer", i32 2}
!5 = !{!"Debian clang version 16.0.6 (15~deb12u1)"}
!6 = distinct !{!6, !7}
!7 = !{!"llvm.loop.mustprogress"}
!8 = distinct !{!8, !7}
!9 = distinct !{!9, !7}
