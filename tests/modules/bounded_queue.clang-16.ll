; ModuleID = 'bounded_queue.c'
source_filename = "bounded_queue.c"
target datalayout = "e-m:e-p270:32:32-p271:32:32-p272:64:64-i64:64-f80:128-n8:16:32:64-S128"
target triple = "x86_64-pc-linux-gnu"

%struct.queue = type { [4 x i32], i32, i32, i8, %union.pthread_mutex_t, %union.pthread_cond_t, %union.pthread_cond_t }
%union.pthread_mutex_t = type { %struct.__pthread_mutex_s }
%struct.__pthread_mutex_s = type { i32, i32, i32, i32, i32, i16, i16, %struct.__pthread_internal_list }
%struct.__pthread_internal_list = type { ptr, ptr }
%union.pthread_cond_t = type { %struct.__pthread_cond_s }
%struct.__pthread_cond_s = type { %union.__atomic_wide_counter, %union.__atomic_wide_counter, [2 x i32], [2 x i32], i32, i32, [2 x i32] }
%union.__atomic_wide_counter = type { i64 }

@__const.main.bases = private unnamed_addr constant [2 x i32] [i32 100, i32 200], align 4
@queue = internal global %struct.queue zeroinitializer, align 8
@.str = private unnamed_addr constant [5 x i8] c"%ld\0A\00", align 1

; Function Attrs: noinline nounwind optnone uwtable
define dso_local i32 @main() #0 {
  %1 = alloca i32, align 4
  %2 = alloca [2 x i64], align 16
  %3 = alloca i64, align 8
  %4 = alloca [2 x i32], align 4
  %5 = alloca i64, align 8
  store i32 0, ptr %1, align 4
  call void @llvm.memcpy.p0.p0.i64(ptr align 4 %4, ptr align 4 @__const.main.bases, i64 8, i1 false)
  store i64 0, ptr %5, align 8
  %6 = call i32 @pthread_create(ptr noundef %3, ptr noundef null, ptr noundef @consume, ptr noundef %5) #4
  %7 = getelementptr inbounds [2 x i64], ptr %2, i64 0, i64 0
  %8 = getelementptr inbounds [2 x i32], ptr %4, i64 0, i64 0
  %9 = call i32 @pthread_create(ptr noundef %7, ptr noundef null, ptr noundef @produce, ptr noundef %8) #4
  %10 = getelementptr inbounds [2 x i64], ptr %2, i64 0, i64 1
  %11 = getelementptr inbounds [2 x i32], ptr %4, i64 0, i64 1
  %12 = call i32 @pthread_create(ptr noundef %10, ptr noundef null, ptr noundef @produce, ptr noundef %11) #4
  %13 = getelementptr inbounds [2 x i64], ptr %2, i64 0, i64 0
  %14 = load i64, ptr %13, align 16
  %15 = call i32 @pthread_join(i64 noundef %14, ptr noundef null)
  %16 = getelementptr inbounds [2 x i64], ptr %2, i64 0, i64 1
  %17 = load i64, ptr %16, align 8
  %18 = call i32 @pthread_join(i64 noundef %17, ptr noundef null)
  %19 = call i32 @pthread_mutex_lock(ptr noundef getelementptr inbounds (%struct.queue, ptr @queue, i32 0, i32 4)) #4
  store i8 1, ptr getelementptr inbounds (%struct.queue, ptr @queue, i32 0, i32 3), align 8
  %20 = call i32 @pthread_cond_broadcast(ptr noundef getelementptr inbounds (%struct.queue, ptr @queue, i32 0, i32 5)) #4
  %21 = call i32 @pthread_mutex_unlock(ptr noundef getelementptr inbounds (%struct.queue, ptr @queue, i32 0, i32 4)) #4
  %22 = load i64, ptr %3, align 8
  %23 = call i32 @pthread_join(i64 noundef %22, ptr noundef null)
  %24 = load i64, ptr %5, align 8
  %25 = call i32 (ptr, ...) @printf(ptr noundef @.str, i64 noundef %24)
  ret i32 0
}

; Function Attrs: nocallback nofree nounwind willreturn memory(argmem: readwrite)
declare void @llvm.memcpy.p0.p0.i64(ptr noalias nocapture writeonly, ptr noalias nocapture readonly, i64, i1 immarg) #1

; Function Attrs: nounwind
declare i32 @pthread_create(ptr noundef, ptr noundef, ptr noundef, ptr noundef) #2

; Function Attrs: noinline nounwind optnone uwtable
define internal ptr @consume(ptr noundef %0) #0 {
  %2 = alloca ptr, align 8
  %3 = alloca i32, align 4
  store ptr %0, ptr %2, align 8
  br label %4

4:                                                ; preds = %6, %1
  %5 = call zeroext i1 @take(ptr noundef @queue, ptr noundef %3)
  br i1 %5, label %6, label %12

6:                                                ; preds = %4
  %7 = load i32, ptr %3, align 4
  %8 = sext i32 %7 to i64
  %9 = load ptr, ptr %2, align 8
  %10 = load i64, ptr %9, align 8
  %11 = add nsw i64 %10, %8
  store i64 %11, ptr %9, align 8
  br label %4, !llvm.loop !6

12:                                               ; preds = %4
  %13 = load ptr, ptr %2, align 8
  ret ptr %13
}

; Function Attrs: noinline nounwind optnone uwtable
define internal ptr @produce(ptr noundef %0) #0 {
  %2 = alloca ptr, align 8
  %3 = alloca i32, align 4
  %4 = alloca i32, align 4
  store ptr %0, ptr %2, align 8
  %5 = load ptr, ptr %2, align 8
  %6 = load i32, ptr %5, align 4
  store i32 %6, ptr %3, align 4
  store i32 0, ptr %4, align 4
  br label %7

7:                                                ; preds = %14, %1
  %8 = load i32, ptr %4, align 4
  %9 = icmp slt i32 %8, 6
  br i1 %9, label %10, label %17

10:                                               ; preds = %7
  %11 = load i32, ptr %3, align 4
  %12 = load i32, ptr %4, align 4
  %13 = add nsw i32 %11, %12
  call void @put(ptr noundef @queue, i32 noundef %13)
  br label %14

14:                                               ; preds = %10
  %15 = load i32, ptr %4, align 4
  %16 = add nsw i32 %15, 1
  store i32 %16, ptr %4, align 4
  br label %7, !llvm.loop !8

17:                                               ; preds = %7
  ret ptr null
}

declare i32 @pthread_join(i64 noundef, ptr noundef) #3

; Function Attrs: nounwind
declare i32 @pthread_mutex_lock(ptr noundef) #2

; Function Attrs: nounwind
declare i32 @pthread_cond_broadcast(ptr noundef) #2

; Function Attrs: nounwind
declare i32 @pthread_mutex_unlock(ptr noundef) #2

declare i32 @printf(ptr noundef, ...) #3

; Function Attrs: noinline nounwind optnone uwtable
define internal zeroext i1 @take(ptr noundef %0, ptr noundef %1) #0 {
  %3 = alloca ptr, align 8
  %4 = alloca ptr, align 8
  %5 = alloca i8, align 1
  store ptr %0, ptr %3, align 8
  store ptr %1, ptr %4, align 8
  store i8 0, ptr %5, align 1
  %6 = load ptr, ptr %3, align 8
  %7 = getelementptr inbounds %struct.queue, ptr %6, i32 0, i32 4
  %8 = call i32 @pthread_mutex_lock(ptr noundef %7) #4
  br label %9

9:                                                ; preds = %22, %2
  %10 = load ptr, ptr %3, align 8
  %11 = getelementptr inbounds %struct.queue, ptr %10, i32 0, i32 2
  %12 = load i32, ptr %11, align 4
  %13 = icmp eq i32 %12, 0
  br i1 %13, label %14, label %20

14:                                               ; preds = %9
  %15 = load ptr, ptr %3, align 8
  %16 = getelementptr inbounds %struct.queue, ptr %15, i32 0, i32 3
  %17 = load i8, ptr %16, align 8
  %18 = trunc i8 %17 to i1
  %19 = xor i1 %18, true
  br label %20

20:                                               ; preds = %14, %9
  %21 = phi i1 [ false, %9 ], [ %19, %14 ]
  br i1 %21, label %22, label %28

22:                                               ; preds = %20
  %23 = load ptr, ptr %3, align 8
  %24 = getelementptr inbounds %struct.queue, ptr %23, i32 0, i32 5
  %25 = load ptr, ptr %3, align 8
  %26 = getelementptr inbounds %struct.queue, ptr %25, i32 0, i32 4
  %27 = call i32 @pthread_cond_wait(ptr noundef %24, ptr noundef %26)
  br label %9, !llvm.loop !9

28:                                               ; preds = %20
  %29 = load ptr, ptr %3, align 8
  %30 = getelementptr inbounds %struct.queue, ptr %29, i32 0, i32 2
  %31 = load i32, ptr %30, align 4
  %32 = icmp ugt i32 %31, 0
  br i1 %32, label %33, label %57

33:                                               ; preds = %28
  %34 = load ptr, ptr %3, align 8
  %35 = getelementptr inbounds %struct.queue, ptr %34, i32 0, i32 0
  %36 = load ptr, ptr %3, align 8
  %37 = getelementptr inbounds %struct.queue, ptr %36, i32 0, i32 1
  %38 = load i32, ptr %37, align 8
  %39 = zext i32 %38 to i64
  %40 = getelementptr inbounds [4 x i32], ptr %35, i64 0, i64 %39
  %41 = load i32, ptr %40, align 4
  %42 = load ptr, ptr %4, align 8
  store i32 %41, ptr %42, align 4
  %43 = load ptr, ptr %3, align 8
  %44 = getelementptr inbounds %struct.queue, ptr %43, i32 0, i32 1
  %45 = load i32, ptr %44, align 8
  %46 = add i32 %45, 1
  %47 = urem i32 %46, 4
  %48 = load ptr, ptr %3, align 8
  %49 = getelementptr inbounds %struct.queue, ptr %48, i32 0, i32 1
  store i32 %47, ptr %49, align 8
  %50 = load ptr, ptr %3, align 8
  %51 = getelementptr inbounds %struct.queue, ptr %50, i32 0, i32 2
  %52 = load i32, ptr %51, align 4
  %53 = add i32 %52, -1
  store i32 %53, ptr %51, align 4
  store i8 1, ptr %5, align 1
  %54 = load ptr, ptr %3, align 8
  %55 = getelementptr inbounds %struct.queue, ptr %54, i32 0, i32 6
  %56 = call i32 @pthread_cond_signal(ptr noundef %55) #4
  br label %57

57:                                               ; preds = %33, %28
  %58 = load ptr, ptr %3, align 8
  %59 = getelementptr inbounds %struct.queue, ptr %58, i32 0, i32 4
  %60 = call i32 @pthread_mutex_unlock(ptr noundef %59) #4
  %61 = load i8, ptr %5, align 1
  %62 = trunc i8 %61 to i1
  ret i1 %62
}

declare i32 @pthread_cond_wait(ptr noundef, ptr noundef) #3

; Function Attrs: nounwind
declare i32 @pthread_cond_signal(ptr noundef) #2

; Function Attrs: noinline nounwind optnone uwtable
define internal void @put(ptr noundef %0, i32 noundef %1) #0 {
  %3 = alloca ptr, align 8
  %4 = alloca i32, align 4
  store ptr %0, ptr %3, align 8
  store i32 %1, ptr %4, align 4
  %5 = load ptr, ptr %3, align 8
  %6 = getelementptr inbounds %struct.queue, ptr %5, i32 0, i32 4
  %7 = call i32 @pthread_mutex_lock(ptr noundef %6) #4
  br label %8

8:                                                ; preds = %13, %2
  %9 = load ptr, ptr %3, align 8
  %10 = getelementptr inbounds %struct.queue, ptr %9, i32 0, i32 2
  %11 = load i32, ptr %10, align 4
  %12 = icmp eq i32 %11, 4
  br i1 %12, label %13, label %19

13:                                               ; preds = %8
  %14 = load ptr, ptr %3, align 8
  %15 = getelementptr inbounds %struct.queue, ptr %14, i32 0, i32 6
  %16 = load ptr, ptr %3, align 8
  %17 = getelementptr inbounds %struct.queue, ptr %16, i32 0, i32 4
  %18 = call i32 @pthread_cond_wait(ptr noundef %15, ptr noundef %17)
  br label %8, !llvm.loop !10

19:                                               ; preds = %8
  %20 = load i32, ptr %4, align 4
  %21 = load ptr, ptr %3, align 8
  %22 = getelementptr inbounds %struct.queue, ptr %21, i32 0, i32 0
  %23 = load ptr, ptr %3, align 8
  %24 = getelementptr inbounds %struct.queue, ptr %23, i32 0, i32 1
  %25 = load i32, ptr %24, align 8
  %26 = load ptr, ptr %3, align 8
  %27 = getelementptr inbounds %struct.queue, ptr %26, i32 0, i32 2
  %28 = load i32, ptr %27, align 4
  %29 = add i32 %25, %28
  %30 = urem i32 %29, 4
  %31 = zext i32 %30 to i64
  %32 = getelementptr inbounds [4 x i32], ptr %22, i64 0, i64 %31
  store i32 %20, ptr %32, align 4
  %33 = load ptr, ptr %3, align 8
  %34 = getelementptr inbounds %struct.queue, ptr %33, i32 0, i32 2
  %35 = load i32, ptr %34, align 4
  %36 = add i32 %35, 1
  store i32 %36, ptr %34, align 4
  %37 = load ptr, ptr %3, align 8
  %38 = getelementptr inbounds %struct.queue, ptr %37, i32 0, i32 5
  %39 = call i32 @pthread_cond_signal(ptr noundef %38) #4
  %40 = load ptr, ptr %3, align 8
  %41 = getelementptr inbounds %struct.queue, ptr %40, i32 0, i32 4
  %42 = call i32 @pthread_mutex_unlock(ptr noundef %41) #4
  ret void
}

attributes #0 = { noinline nounwind optnone uwtable "frame-pointer"="all" "min-legal-vector-width"="0" "no-trapping-math"="true" "stack-protector-buffer-size"="8" "target-cpu"="x86-64" "target-features"="+cx8,+fxsr,+mmx,+sse,+sse2,+x87" "tune-cpu"="generic" }
attributes #1 = { nocallback nofree nounwind willreturn memory(argmem: readwrite) }
attributes #2 = { nounwind "frame-pointer"="all" "no-trapping-math"="true" "stack-protector-buffer-size"="8" "target-cpu"="x86-64" "target-features"="+cx8,+fxsr,+mmx,+sse,+sse2,+x87" "tune-cpu"="generic" }
attributes #3 = { "frame-pointer"="all" "no-trapping-math"="true" "stack-protector-buffer-size"="8" "target-cpu"="x86-64" "target-features"="+cx8,+fxsr,+mmx,+sse,+sse2,+x87" "tune-cpu"="generic" }
attributes #4 = { nounwind }

!llvm.module.flags = !{!0, !1, !2, !3, !4}
!llvm.ident = !{!5}

!0 = !{i32 1, !"wchar_size", i32 4}
!1 = !{i32 8, !"PIC Level", i32 2}
!2 = !{i32 7, !"PIE Level", i32 2}
!3 = !{i32 7, !"uwtable", i32 2}
!4 = !{i32 7, !"frame-pointer", i32 2}
!5 = !{!"Debian clang version 16.0.6 (15~deb12u1)"}
!6 = distinct !{!6, !7}
!7 = !{!"llvm.loop.mustprogress"}
!8 = distinct !{!8, !7}
!9 = distinct !{!9, !7}
!10 = distinct !{!10, !7}
