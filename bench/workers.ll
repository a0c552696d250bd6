; What clang writes at -O0 for workers.c, with opaque pointers.
source_filename = "workers.c"
target datalayout = "e-m:e-p270:32:32-p271:32:32-p272:64:64-i64:64-f80:128-n8:16:32:64-S128"
target triple = "x86_64-pc-linux-gnu"

%struct.ring = type { %union.pthread_mutex_t, %union.pthread_cond_t, %union.pthread_cond_t, [16 x i32], i32, i32, i32 }
%union.pthread_mutex_t = type { %struct.__pthread_mutex_s }
%struct.__pthread_mutex_s = type { i32, i32, i32, i32, i32, i16, i16, %struct.__pthread_internal_list }
%struct.__pthread_internal_list = type { ptr, ptr }
%union.pthread_cond_t = type { %struct.__pthread_cond_s }
%struct.__pthread_cond_s = type { %union.__atomic_wide_counter, %union.__atomic_wide_counter, [2 x i32], [2 x i32], i32, i32, [2 x i32] }
%union.__atomic_wide_counter = type { i64 }
%struct.worker = type { i64, ptr, i64, i32 }

@ring = internal global %struct.ring zeroinitializer, align 8
@.str = private unnamed_addr constant [11 x i8] c"%ld %d %d\0A\00", align 1
@looks = internal global i32 0, align 4

; Function Attrs: noinline nounwind uwtable
define dso_local i32 @main() #0 {
  %1 = alloca i32, align 4
  %2 = alloca ptr, align 8
  %3 = alloca i64, align 8
  %4 = alloca i32, align 4
  %5 = alloca i32, align 4
  %6 = alloca i32, align 4
  %7 = alloca i32, align 4
  store i32 0, ptr %1, align 4
  %8 = call noalias ptr @calloc(i64 noundef 4, i64 noundef 32) #4
  store ptr %8, ptr %2, align 8
  store i64 0, ptr %3, align 8
  store i32 0, ptr %4, align 4
  %9 = load ptr, ptr %2, align 8
  %10 = icmp ne ptr %9, null
  br i1 %10, label %12, label %11

11:                                               ; preds = %0
  store i32 1, ptr %1, align 4
  br label %90

12:                                               ; preds = %0
  %13 = call i32 @pthread_mutex_init(ptr noundef getelementptr inbounds (%struct.ring, ptr @ring, i32 0, i32 0), ptr noundef null) #4
  %14 = call i32 @pthread_cond_init(ptr noundef getelementptr inbounds (%struct.ring, ptr @ring, i32 0, i32 1), ptr noundef null) #4
  %15 = call i32 @pthread_cond_init(ptr noundef getelementptr inbounds (%struct.ring, ptr @ring, i32 0, i32 2), ptr noundef null) #4
  store i32 0, ptr %5, align 4
  br label %16

16:                                               ; preds = %38, %12
  %17 = load i32, ptr %5, align 4
  %18 = icmp slt i32 %17, 4
  br i1 %18, label %19, label %41

19:                                               ; preds = %16
  %20 = load ptr, ptr %2, align 8
  %21 = load i32, ptr %5, align 4
  %22 = sext i32 %21 to i64
  %23 = getelementptr inbounds %struct.worker, ptr %20, i64 %22
  %24 = getelementptr inbounds %struct.worker, ptr %23, i32 0, i32 1
  store ptr @ring, ptr %24, align 8
  %25 = load ptr, ptr %2, align 8
  %26 = load i32, ptr %5, align 4
  %27 = sext i32 %26 to i64
  %28 = getelementptr inbounds %struct.worker, ptr %25, i64 %27
  %29 = getelementptr inbounds %struct.worker, ptr %28, i32 0, i32 0
  %30 = load ptr, ptr %2, align 8
  %31 = load i32, ptr %5, align 4
  %32 = sext i32 %31 to i64
  %33 = getelementptr inbounds %struct.worker, ptr %30, i64 %32
  %34 = call i32 @pthread_create(ptr noundef %29, ptr noundef null, ptr noundef @work, ptr noundef %33) #4
  %35 = icmp ne i32 %34, 0
  br i1 %35, label %36, label %37

36:                                               ; preds = %19
  call void @abort() #5
  unreachable

37:                                               ; preds = %19
  br label %38

38:                                               ; preds = %37
  %39 = load i32, ptr %5, align 4
  %40 = add nsw i32 %39, 1
  store i32 %40, ptr %5, align 4
  br label %16, !llvm.loop !6

41:                                               ; preds = %16
  store i32 0, ptr %6, align 4
  br label %42

42:                                               ; preds = %47, %41
  %43 = load i32, ptr %6, align 4
  %44 = icmp slt i32 %43, 200
  br i1 %44, label %45, label %50

45:                                               ; preds = %42
  %46 = load i32, ptr %6, align 4
  call void @put(ptr noundef @ring, i32 noundef %46)
  br label %47

47:                                               ; preds = %45
  %48 = load i32, ptr %6, align 4
  %49 = add nsw i32 %48, 1
  store i32 %49, ptr %6, align 4
  br label %42, !llvm.loop !8

50:                                               ; preds = %42
  %51 = call i32 @pthread_mutex_lock(ptr noundef getelementptr inbounds (%struct.ring, ptr @ring, i32 0, i32 0)) #4
  store i32 1, ptr getelementptr inbounds (%struct.ring, ptr @ring, i32 0, i32 6), align 8
  %52 = call i32 @pthread_cond_broadcast(ptr noundef getelementptr inbounds (%struct.ring, ptr @ring, i32 0, i32 1)) #4
  %53 = call i32 @pthread_mutex_unlock(ptr noundef getelementptr inbounds (%struct.ring, ptr @ring, i32 0, i32 0)) #4
  store i32 0, ptr %7, align 4
  br label %54

54:                                               ; preds = %81, %50
  %55 = load i32, ptr %7, align 4
  %56 = icmp slt i32 %55, 4
  br i1 %56, label %57, label %84

57:                                               ; preds = %54
  %58 = load ptr, ptr %2, align 8
  %59 = load i32, ptr %7, align 4
  %60 = sext i32 %59 to i64
  %61 = getelementptr inbounds %struct.worker, ptr %58, i64 %60
  %62 = getelementptr inbounds %struct.worker, ptr %61, i32 0, i32 0
  %63 = load i64, ptr %62, align 8
  %64 = call i32 @pthread_join(i64 noundef %63, ptr noundef null)
  %65 = load ptr, ptr %2, align 8
  %66 = load i32, ptr %7, align 4
  %67 = sext i32 %66 to i64
  %68 = getelementptr inbounds %struct.worker, ptr %65, i64 %67
  %69 = getelementptr inbounds %struct.worker, ptr %68, i32 0, i32 2
  %70 = load i64, ptr %69, align 8
  %71 = load i64, ptr %3, align 8
  %72 = add nsw i64 %71, %70
  store i64 %72, ptr %3, align 8
  %73 = load ptr, ptr %2, align 8
  %74 = load i32, ptr %7, align 4
  %75 = sext i32 %74 to i64
  %76 = getelementptr inbounds %struct.worker, ptr %73, i64 %75
  %77 = getelementptr inbounds %struct.worker, ptr %76, i32 0, i32 3
  %78 = load i32, ptr %77, align 8
  %79 = load i32, ptr %4, align 4
  %80 = add nsw i32 %79, %78
  store i32 %80, ptr %4, align 4
  br label %81

81:                                               ; preds = %57
  %82 = load i32, ptr %7, align 4
  %83 = add nsw i32 %82, 1
  store i32 %83, ptr %7, align 4
  br label %54, !llvm.loop !9

84:                                               ; preds = %54
  %85 = load i64, ptr %3, align 8
  %86 = load i32, ptr %4, align 4
  %87 = load i32, ptr @looks, align 4
  %88 = call i32 (ptr, ...) @printf(ptr noundef getelementptr inbounds ([11 x i8], ptr @.str, i64 0, i64 0), i64 noundef %85, i32 noundef %86, i32 noundef %87)
  %89 = load ptr, ptr %2, align 8
  call void @free(ptr noundef %89) #4
  store i32 0, ptr %1, align 4
  br label %90

90:                                               ; preds = %84, %11
  %91 = load i32, ptr %1, align 4
  ret i32 %91
}

; Function Attrs: nounwind
declare noalias ptr @calloc(i64 noundef, i64 noundef) #1

; Function Attrs: nounwind
declare i32 @pthread_mutex_init(ptr noundef, ptr noundef) #1

; Function Attrs: nounwind
declare i32 @pthread_cond_init(ptr noundef, ptr noundef) #1

; Function Attrs: nounwind
declare i32 @pthread_create(ptr noundef, ptr noundef, ptr noundef, ptr noundef) #1

; Function Attrs: noinline nounwind uwtable
define internal ptr @work(ptr noundef %0) #0 {
  %2 = alloca ptr, align 8
  %3 = alloca ptr, align 8
  %4 = alloca i32, align 4
  store ptr %0, ptr %2, align 8
  %5 = load ptr, ptr %2, align 8
  store ptr %5, ptr %3, align 8
  br label %6

6:                                                ; preds = %36, %1
  %7 = load ptr, ptr %3, align 8
  %8 = getelementptr inbounds %struct.worker, ptr %7, i32 0, i32 1
  %9 = load ptr, ptr %8, align 8
  %10 = call i32 @take(ptr noundef %9, ptr noundef %4)
  %11 = icmp ne i32 %10, 0
  br i1 %11, label %12, label %37

12:                                               ; preds = %6
  %13 = load i32, ptr %4, align 4
  %14 = and i32 %13, 3
  switch i32 %14, label %23 [
    i32 0, label %15
    i32 2, label %16
  ]

15:                                               ; preds = %12
  br label %36

16:                                               ; preds = %12
  %17 = load i32, ptr %4, align 4
  %18 = sext i32 %17 to i64
  %19 = load ptr, ptr %3, align 8
  %20 = getelementptr inbounds %struct.worker, ptr %19, i32 0, i32 2
  %21 = load i64, ptr %20, align 8
  %22 = add nsw i64 %21, %18
  store i64 %22, ptr %20, align 8
  br label %36

23:                                               ; preds = %12
  %24 = load i32, ptr %4, align 4
  %25 = sext i32 %24 to i64
  %26 = load ptr, ptr %3, align 8
  %27 = getelementptr inbounds %struct.worker, ptr %26, i32 0, i32 2
  %28 = load i64, ptr %27, align 8
  %29 = add nsw i64 %28, %25
  store i64 %29, ptr %27, align 8
  %30 = load i32, ptr %4, align 4
  %31 = call i32 @is_prime(i32 noundef %30)
  %32 = load ptr, ptr %3, align 8
  %33 = getelementptr inbounds %struct.worker, ptr %32, i32 0, i32 3
  %34 = load i32, ptr %33, align 8
  %35 = add nsw i32 %34, %31
  store i32 %35, ptr %33, align 8
  br label %36

36:                                               ; preds = %23, %16, %15
  br label %6, !llvm.loop !10

37:                                               ; preds = %6
  ret ptr null
}

; Function Attrs: noreturn nounwind
declare void @abort() #2

; Function Attrs: noinline nounwind uwtable
define internal void @put(ptr noundef %0, i32 noundef %1) #0 {
  %3 = alloca ptr, align 8
  %4 = alloca i32, align 4
  store ptr %0, ptr %3, align 8
  store i32 %1, ptr %4, align 4
  %5 = load ptr, ptr %3, align 8
  %6 = getelementptr inbounds %struct.ring, ptr %5, i32 0, i32 0
  %7 = call i32 @pthread_mutex_lock(ptr noundef %6) #4
  br label %8

8:                                                ; preds = %17, %2
  %9 = load ptr, ptr %3, align 8
  %10 = getelementptr inbounds %struct.ring, ptr %9, i32 0, i32 5
  %11 = load i32, ptr %10, align 4
  %12 = load ptr, ptr %3, align 8
  %13 = getelementptr inbounds %struct.ring, ptr %12, i32 0, i32 4
  %14 = load i32, ptr %13, align 8
  %15 = sub i32 %11, %14
  %16 = icmp eq i32 %15, 16
  br i1 %16, label %17, label %23

17:                                               ; preds = %8
  %18 = load ptr, ptr %3, align 8
  %19 = getelementptr inbounds %struct.ring, ptr %18, i32 0, i32 2
  %20 = load ptr, ptr %3, align 8
  %21 = getelementptr inbounds %struct.ring, ptr %20, i32 0, i32 0
  %22 = call i32 @pthread_cond_wait(ptr noundef %19, ptr noundef %21)
  br label %8, !llvm.loop !11

23:                                               ; preds = %8
  %24 = load i32, ptr %4, align 4
  %25 = load ptr, ptr %3, align 8
  %26 = getelementptr inbounds %struct.ring, ptr %25, i32 0, i32 3
  %27 = load ptr, ptr %3, align 8
  %28 = getelementptr inbounds %struct.ring, ptr %27, i32 0, i32 5
  %29 = load i32, ptr %28, align 4
  %30 = add i32 %29, 1
  store i32 %30, ptr %28, align 4
  %31 = urem i32 %29, 16
  %32 = zext i32 %31 to i64
  %33 = getelementptr inbounds [16 x i32], ptr %26, i64 0, i64 %32
  store i32 %24, ptr %33, align 4
  %34 = load ptr, ptr %3, align 8
  %35 = getelementptr inbounds %struct.ring, ptr %34, i32 0, i32 1
  %36 = call i32 @pthread_cond_signal(ptr noundef %35) #4
  %37 = load ptr, ptr %3, align 8
  %38 = getelementptr inbounds %struct.ring, ptr %37, i32 0, i32 0
  %39 = call i32 @pthread_mutex_unlock(ptr noundef %38) #4
  ret void
}

; Function Attrs: nounwind
declare i32 @pthread_mutex_lock(ptr noundef) #1

; Function Attrs: nounwind
declare i32 @pthread_cond_broadcast(ptr noundef) #1

; Function Attrs: nounwind
declare i32 @pthread_mutex_unlock(ptr noundef) #1

declare i32 @pthread_join(i64 noundef, ptr noundef) #3

declare i32 @printf(ptr noundef, ...) #3

; Function Attrs: nounwind
declare void @free(ptr noundef) #1

; Function Attrs: noinline nounwind uwtable
define internal i32 @take(ptr noundef %0, ptr noundef %1) #0 {
  %3 = alloca ptr, align 8
  %4 = alloca ptr, align 8
  %5 = alloca i32, align 4
  store ptr %0, ptr %3, align 8
  store ptr %1, ptr %4, align 8
  store i32 0, ptr %5, align 4
  %6 = load ptr, ptr %3, align 8
  %7 = getelementptr inbounds %struct.ring, ptr %6, i32 0, i32 0
  %8 = call i32 @pthread_mutex_lock(ptr noundef %7) #4
  br label %9

9:                                                ; preds = %25, %2
  %10 = load ptr, ptr %3, align 8
  %11 = getelementptr inbounds %struct.ring, ptr %10, i32 0, i32 5
  %12 = load i32, ptr %11, align 4
  %13 = load ptr, ptr %3, align 8
  %14 = getelementptr inbounds %struct.ring, ptr %13, i32 0, i32 4
  %15 = load i32, ptr %14, align 8
  %16 = icmp eq i32 %12, %15
  br i1 %16, label %17, label %23

17:                                               ; preds = %9
  %18 = load ptr, ptr %3, align 8
  %19 = getelementptr inbounds %struct.ring, ptr %18, i32 0, i32 6
  %20 = load i32, ptr %19, align 8
  %21 = icmp ne i32 %20, 0
  %22 = xor i1 %21, true
  br label %23

23:                                               ; preds = %17, %9
  %24 = phi i1 [ false, %9 ], [ %22, %17 ]
  br i1 %24, label %25, label %31

25:                                               ; preds = %23
  %26 = load ptr, ptr %3, align 8
  %27 = getelementptr inbounds %struct.ring, ptr %26, i32 0, i32 1
  %28 = load ptr, ptr %3, align 8
  %29 = getelementptr inbounds %struct.ring, ptr %28, i32 0, i32 0
  %30 = call i32 @pthread_cond_wait(ptr noundef %27, ptr noundef %29)
  br label %9, !llvm.loop !12

31:                                               ; preds = %23
  %32 = load ptr, ptr %3, align 8
  %33 = getelementptr inbounds %struct.ring, ptr %32, i32 0, i32 5
  %34 = load i32, ptr %33, align 4
  %35 = load ptr, ptr %3, align 8
  %36 = getelementptr inbounds %struct.ring, ptr %35, i32 0, i32 4
  %37 = load i32, ptr %36, align 8
  %38 = icmp ne i32 %34, %37
  br i1 %38, label %39, label %54

39:                                               ; preds = %31
  %40 = load ptr, ptr %3, align 8
  %41 = getelementptr inbounds %struct.ring, ptr %40, i32 0, i32 3
  %42 = load ptr, ptr %3, align 8
  %43 = getelementptr inbounds %struct.ring, ptr %42, i32 0, i32 4
  %44 = load i32, ptr %43, align 8
  %45 = add i32 %44, 1
  store i32 %45, ptr %43, align 8
  %46 = urem i32 %44, 16
  %47 = zext i32 %46 to i64
  %48 = getelementptr inbounds [16 x i32], ptr %41, i64 0, i64 %47
  %49 = load i32, ptr %48, align 4
  %50 = load ptr, ptr %4, align 8
  store i32 %49, ptr %50, align 4
  store i32 1, ptr %5, align 4
  %51 = load ptr, ptr %3, align 8
  %52 = getelementptr inbounds %struct.ring, ptr %51, i32 0, i32 2
  %53 = call i32 @pthread_cond_signal(ptr noundef %52) #4
  br label %54

54:                                               ; preds = %39, %31
  %55 = load ptr, ptr %3, align 8
  %56 = getelementptr inbounds %struct.ring, ptr %55, i32 0, i32 0
  %57 = call i32 @pthread_mutex_unlock(ptr noundef %56) #4
  %58 = load i32, ptr %5, align 4
  ret i32 %58
}

; Function Attrs: noinline nounwind uwtable
define internal i32 @is_prime(i32 noundef %0) #0 {
  %2 = alloca i32, align 4
  %3 = alloca i32, align 4
  %4 = alloca i32, align 4
  store i32 %0, ptr %3, align 4
  %5 = load i32, ptr %3, align 4
  %6 = icmp slt i32 %5, 2
  br i1 %6, label %7, label %8

7:                                                ; preds = %1
  store i32 0, ptr %2, align 4
  br label %28

8:                                                ; preds = %1
  store i32 2, ptr %4, align 4
  br label %9

9:                                                ; preds = %24, %8
  %10 = load i32, ptr %4, align 4
  %11 = load i32, ptr %4, align 4
  %12 = mul nsw i32 %10, %11
  %13 = load i32, ptr %3, align 4
  %14 = icmp sle i32 %12, %13
  br i1 %14, label %15, label %27

15:                                               ; preds = %9
  %16 = load i32, ptr @looks, align 4
  %17 = add nsw i32 %16, 1
  store i32 %17, ptr @looks, align 4
  %18 = load i32, ptr %3, align 4
  %19 = load i32, ptr %4, align 4
  %20 = srem i32 %18, %19
  %21 = icmp eq i32 %20, 0
  br i1 %21, label %22, label %23

22:                                               ; preds = %15
  store i32 0, ptr %2, align 4
  br label %28

23:                                               ; preds = %15
  br label %24

24:                                               ; preds = %23
  %25 = load i32, ptr %4, align 4
  %26 = add nsw i32 %25, 1
  store i32 %26, ptr %4, align 4
  br label %9, !llvm.loop !13

27:                                               ; preds = %9
  store i32 1, ptr %2, align 4
  br label %28

28:                                               ; preds = %27, %22, %7
  %29 = load i32, ptr %2, align 4
  ret i32 %29
}

declare i32 @pthread_cond_wait(ptr noundef, ptr noundef) #3

; Function Attrs: nounwind
declare i32 @pthread_cond_signal(ptr noundef) #1

attributes #0 = { noinline nounwind uwtable "frame-pointer"="all" "min-legal-vector-width"="0" "no-trapping-math"="true" "stack-protector-buffer-size"="8" "target-cpu"="x86-64" "target-features"="+cx8,+fxsr,+mmx,+sse,+sse2,+x87" "tune-cpu"="generic" }
attributes #1 = { nounwind "frame-pointer"="all" "no-trapping-math"="true" "stack-protector-buffer-size"="8" "target-cpu"="x86-64" "target-features"="+cx8,+fxsr,+mmx,+sse,+sse2,+x87" "tune-cpu"="generic" }
attributes #2 = { noreturn nounwind "frame-pointer"="all" "no-trapping-math"="true" "stack-protector-buffer-size"="8" "target-cpu"="x86-64" "target-features"="+cx8,+fxsr,+mmx,+sse,+sse2,+x87" "tune-cpu"="generic" }
attributes #3 = { "frame-pointer"="all" "no-trapping-math"="true" "stack-protector-buffer-size"="8" "target-cpu"="x86-64" "target-features"="+cx8,+fxsr,+mmx,+sse,+sse2,+x87" "tune-cpu"="generic" }
attributes #4 = { nounwind }
attributes #5 = { noreturn nounwind }

!llvm.module.flags = !{!0, !1, !2, !3, !4}
!llvm.ident = !{!5}

!0 = !{i32 1, !"wchar_size", i32 4}
!1 = !{i32 7, !"PIC Level", i32 2}
!2 = !{i32 7, !"PIE Level", i32 2}
!3 = !{i32 7, !"uwtable", i32 1}
!4 = !{i32 7, !"frame-pointer", i32 2}
!5 = !{!"Debian clang version 14.0.6"}
!6 = distinct !{!6, !7}
!7 = !{!"llvm.loop.mustprogress"}
!8 = distinct !{!8, !7}
!9 = distinct !{!9, !7}
!10 = distinct !{!10, !7}
!11 = distinct !{!11, !7}
!12 = distinct !{!12, !7}
!13 = distinct !{!13, !7}
