; ModuleID = '<stdin>'
source_filename = "bounded_queue.c"
target datalayout = "e-m:e-p270:32:32-p271:32:32-p272:64:64-i64:64-f80:128-n8:16:32:64-S128"
target triple = "x86_64-pc-linux-gnu"

%struct.queue = type { [4 x i32], i32, i32, i8, %union.pthread_mutex_t, %union.pthread_cond_t, %union.pthread_cond_t }
%union.pthread_mutex_t = type { %struct.__pthread_mutex_s }
%struct.__pthread_mutex_s = type { i32, i32, i32, i32, i32, i16, i16, %struct.__pthread_internal_list }
%struct.__pthread_internal_list = type { ptr, ptr }
%union.pthread_cond_t = type { %struct.__pthread_cond_s }
%struct.__pthread_cond_s = type { %union.__atomic_wide_counter, %union.__atomic_wide_counter, [2 x i32], [2 x i32], i32, i32, [2 x i32] }
%union.__atomic_wide_counter = type { i64 }

@__const.main.bases = private unnamed_addr constant [2 x i32] [i32 100, i32 200], align 4
@queue = internal global %struct.queue zeroinitializer, align 8
@.str = private unnamed_addr constant [5 x i8] c"%ld\0A\00", align 1

; Function Attrs: noinline nounwind uwtable
define dso_local i32 @main() #0 {
  %1 = alloca [2 x i64], align 16
  %2 = alloca i64, align 8
  %3 = alloca [2 x i32], align 4
  %4 = alloca i64, align 8
  call void @llvm.memcpy.p0.p0.i64(ptr align 4 %3, ptr align 4 @__const.main.bases, i64 8, i1 false)
  store i64 0, ptr %4, align 8
  %5 = call i32 @pthread_create(ptr noundef %2, ptr noundef null, ptr noundef @consume, ptr noundef %4) #4
  %6 = getelementptr inbounds [2 x i64], ptr %1, i64 0, i64 0
  %7 = getelementptr inbounds [2 x i32], ptr %3, i64 0, i64 0
  %8 = call i32 @pthread_create(ptr noundef %6, ptr noundef null, ptr noundef @produce, ptr noundef %7) #4
  %9 = getelementptr inbounds [2 x i64], ptr %1, i64 0, i64 1
  %10 = getelementptr inbounds [2 x i32], ptr %3, i64 0, i64 1
  %11 = call i32 @pthread_create(ptr noundef %9, ptr noundef null, ptr noundef @produce, ptr noundef %10) #4
  %12 = getelementptr inbounds [2 x i64], ptr %1, i64 0, i64 0
  %13 = load i64, ptr %12, align 16
  %14 = call i32 @pthread_join(i64 noundef %13, ptr noundef null)
  %15 = getelementptr inbounds [2 x i64], ptr %1, i64 0, i64 1
  %16 = load i64, ptr %15, align 8
  %17 = call i32 @pthread_join(i64 noundef %16, ptr noundef null)
  %18 = call i32 @pthread_mutex_lock(ptr noundef getelementptr inbounds (%struct.queue, ptr @queue, i32 0, i32 4)) #4
  store i8 1, ptr getelementptr inbounds (%struct.queue, ptr @queue, i32 0, i32 3), align 8
  %19 = call i32 @pthread_cond_broadcast(ptr noundef getelementptr inbounds (%struct.queue, ptr @queue, i32 0, i32 5)) #4
  %20 = call i32 @pthread_mutex_unlock(ptr noundef getelementptr inbounds (%struct.queue, ptr @queue, i32 0, i32 4)) #4
  %21 = load i64, ptr %2, align 8
  %22 = call i32 @pthread_join(i64 noundef %21, ptr noundef null)
  %23 = load i64, ptr %4, align 8
  %24 = call i32 (ptr, ...) @printf(ptr noundef @.str, i64 noundef %23)
  ret i32 0
}

; Function Attrs: argmemonly nocallback nofree nounwind willreturn
declare void @llvm.memcpy.p0.p0.i64(ptr noalias nocapture writeonly, ptr noalias nocapture readonly, i64, i1 immarg) #1

; Function Attrs: nounwind
declare i32 @pthread_create(ptr noundef, ptr noundef, ptr noundef, ptr noundef) #2

; Function Attrs: noinline nounwind uwtable
define internal ptr @consume(ptr noundef %0) #0 {
  %2 = alloca i32, align 4
  br label %3

3:                                                ; preds = %5, %1
  %4 = call zeroext i1 @take(ptr noundef @queue, ptr noundef %2)
  br i1 %4, label %5, label %10

5:                                                ; preds = %3
  %6 = load i32, ptr %2, align 4
  %7 = sext i32 %6 to i64
  %8 = load i64, ptr %0, align 8
  %9 = add nsw i64 %8, %7
  store i64 %9, ptr %0, align 8
  br label %3, !llvm.loop !6

10:                                               ; preds = %3
  ret ptr %0
}

; Function Attrs: noinline nounwind uwtable
define internal ptr @produce(ptr noundef %0) #0 {
  %2 = load i32, ptr %0, align 4
  br label %3

3:                                                ; preds = %7, %1
  %.0 = phi i32 [ 0, %1 ], [ %8, %7 ]
  %4 = icmp slt i32 %.0, 6
  br i1 %4, label %5, label %9

5:                                                ; preds = %3
  %6 = add nsw i32 %2, %.0
  call void @put(ptr noundef @queue, i32 noundef %6)
  br label %7

7:                                                ; preds = %5
  %8 = add nsw i32 %.0, 1
  br label %3, !llvm.loop !8

9:                                                ; preds = %3
  ret ptr null
}

declare i32 @pthread_join(i64 noundef, ptr noundef) #3

; Function Attrs: nounwind
declare i32 @pthread_mutex_lock(ptr noundef) #2

; Function Attrs: nounwind
declare i32 @pthread_cond_broadcast(ptr noundef) #2

; Function Attrs: nounwind
declare i32 @pthread_mutex_unlock(ptr noundef) #2

declare i32 @printf(ptr noundef, ...) #3

; Function Attrs: noinline nounwind uwtable
define internal zeroext i1 @take(ptr noundef %0, ptr noundef %1) #0 {
  %3 = getelementptr inbounds %struct.queue, ptr %0, i32 0, i32 4
  %4 = call i32 @pthread_mutex_lock(ptr noundef %3) #4
  br label %5

5:                                                ; preds = %16, %2
  %6 = getelementptr inbounds %struct.queue, ptr %0, i32 0, i32 2
  %7 = load i32, ptr %6, align 4
  %8 = icmp eq i32 %7, 0
  br i1 %8, label %9, label %14

9:                                                ; preds = %5
  %10 = getelementptr inbounds %struct.queue, ptr %0, i32 0, i32 3
  %11 = load i8, ptr %10, align 8
  %12 = trunc i8 %11 to i1
  %13 = xor i1 %12, true
  br label %14

14:                                               ; preds = %9, %5
  %15 = phi i1 [ false, %5 ], [ %13, %9 ]
  br i1 %15, label %16, label %20

16:                                               ; preds = %14
  %17 = getelementptr inbounds %struct.queue, ptr %0, i32 0, i32 5
  %18 = getelementptr inbounds %struct.queue, ptr %0, i32 0, i32 4
  %19 = call i32 @pthread_cond_wait(ptr noundef %17, ptr noundef %18)
  br label %5, !llvm.loop !9

20:                                               ; preds = %14
  %21 = getelementptr inbounds %struct.queue, ptr %0, i32 0, i32 2
  %22 = load i32, ptr %21, align 4
  %23 = icmp ugt i32 %22, 0
  br i1 %23, label %24, label %41

24:                                               ; preds = %20
  %25 = getelementptr inbounds %struct.queue, ptr %0, i32 0, i32 0
  %26 = getelementptr inbounds %struct.queue, ptr %0, i32 0, i32 1
  %27 = load i32, ptr %26, align 8
  %28 = zext i32 %27 to i64
  %29 = getelementptr inbounds [4 x i32], ptr %25, i64 0, i64 %28
  %30 = load i32, ptr %29, align 4
  store i32 %30, ptr %1, align 4
  %31 = getelementptr inbounds %struct.queue, ptr %0, i32 0, i32 1
  %32 = load i32, ptr %31, align 8
  %33 = add i32 %32, 1
  %34 = urem i32 %33, 4
  %35 = getelementptr inbounds %struct.queue, ptr %0, i32 0, i32 1
  store i32 %34, ptr %35, align 8
  %36 = getelementptr inbounds %struct.queue, ptr %0, i32 0, i32 2
  %37 = load i32, ptr %36, align 4
  %38 = add i32 %37, -1
  store i32 %38, ptr %36, align 4
  %39 = getelementptr inbounds %struct.queue, ptr %0, i32 0, i32 6
  %40 = call i32 @pthread_cond_signal(ptr noundef %39) #4
  br label %41

41:                                               ; preds = %24, %20
  %.0 = phi i8 [ 1, %24 ], [ 0, %20 ]
  %42 = getelementptr inbounds %struct.queue, ptr %0, i32 0, i32 4
  %43 = call i32 @pthread_mutex_unlock(ptr noundef %42) #4
  %44 = trunc i8 %.0 to i1
  ret i1 %44
}

declare i32 @pthread_cond_wait(ptr noundef, ptr noundef) #3

; Function Attrs: nounwind
declare i32 @pthread_cond_signal(ptr noundef) #2

; Function Attrs: noinline nounwind uwtable
define internal void @put(ptr noundef %0, i32 noundef %1) #0 {
  %3 = getelementptr inbounds %struct.queue, ptr %0, i32 0, i32 4
  %4 = call i32 @pthread_mutex_lock(ptr noundef %3) #4
  br label %5

5:                                                ; preds = %9, %2
  %6 = getelementptr inbounds %struct.queue, ptr %0, i32 0, i32 2
  %7 = load i32, ptr %6, align 4
  %8 = icmp eq i32 %7, 4
  br i1 %8, label %9, label %13

9:                                                ; preds = %5
  %10 = getelementptr inbounds %struct.queue, ptr %0, i32 0, i32 6
  %11 = getelementptr inbounds %struct.queue, ptr %0, i32 0, i32 4
  %12 = call i32 @pthread_cond_wait(ptr noundef %10, ptr noundef %11)
  br label %5, !llvm.loop !10

13:                                               ; preds = %5
  %14 = getelementptr inbounds %struct.queue, ptr %0, i32 0, i32 0
  %15 = getelementptr inbounds %struct.queue, ptr %0, i32 0, i32 1
  %16 = load i32, ptr %15, align 8
  %17 = getelementptr inbounds %struct.queue, ptr %0, i32 0, i32 2
  %18 = load i32, ptr %17, align 4
  %19 = add i32 %16, %18
  %20 = urem i32 %19, 4
  %21 = zext i32 %20 to i64
  %22 = getelementptr inbounds [4 x i32], ptr %14, i64 0, i64 %21
  store i32 %1, ptr %22, align 4
  %23 = getelementptr inbounds %struct.queue, ptr %0, i32 0, i32 2
  %24 = load i32, ptr %23, align 4
  %25 = add i32 %24, 1
  store i32 %25, ptr %23, align 4
  %26 = getelementptr inbounds %struct.queue, ptr %0, i32 0, i32 5
  %27 = call i32 @pthread_cond_signal(ptr noundef %26) #4
  %28 = getelementptr inbounds %struct.queue, ptr %0, i32 0, i32 4
  %29 = call i32 @pthread_mutex_unlock(ptr noundef %28) #4
  ret void
}

attributes #0 = { noinline nounwind uwtable "frame-pointer"="all" "min-legal-vector-width"="0" "no-trapping-math"="true" "stack-protector-buffer-size"="8" "target-cpu"="x86-64" "target-features"="+cx8,+fxsr,+mmx,+sse,+sse2,+x87" "tune-cpu"="generic" }
attributes #1 = { argmemonly nocallback nofree nounwind willreturn }
attributes #2 = { nounwind "frame-pointer"="all" "no-trapping-math"="true" "stack-protector-buffer-size"="8" "target-cpu"="x86-64" "target-features"="+cx8,+fxsr,+mmx,+sse,+sse2,+x87" "tune-cpu"="generic" }
attributes #3 = { "frame-pointer"="all" "no-trapping-math"="true" "stack-protector-buffer-size"="8" "target-cpu"="x86-64" "target-features"="+cx8,+fxsr,+mmx,+sse,+sse2,+x87" "tune-cpu"="generic" }
attributes #4 = { nounwind }

!llvm.module.flags = !{!0, !1, !2, !3, !4}
!llvm.ident = !{!5}

!0 = !{i32 1, !"wchar_size", i32 4}
!1 = !{i32 7, !"PIC Level", i32 2}
!2 = !{i32 7, !"PIE Level", i32 2}
!3 = !{i32 7, !"uwtable", i32 2}
!4 = !{i32 7, !"frame-pointer", i32 2}
!5 = !{!"Debian clang version 15.0.6"}
!6 = distinct !{!6, !7}
!7 = !{!"llvm.loop.mustprogress"}
!8 = distinct !{!8, !7}
!9 = distinct !{!9, !7}
!10 = distinct !{!10, !7}
