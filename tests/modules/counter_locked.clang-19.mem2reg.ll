; ModuleID = '<stdin>'
source_filename = "counter_locked.c"
target datalayout = "e-m:e-p270:32:32-p271:32:32-p272:64:64-i64:64-i128:128-f80:128-n8:16:32:64-S128"
target triple = "x86_64-pc-linux-gnu"

%struct.counter = type { %union.pthread_mutex_t, i64, i32 }
%union.pthread_mutex_t = type { %struct.__pthread_mutex_s }
%struct.__pthread_mutex_s = type { i32, i32, i32, i32, i32, i16, i16, %struct.__pthread_internal_list }
%struct.__pthread_internal_list = type { ptr, ptr }

@total = internal global %struct.counter zeroinitializer, align 8
@.str = private unnamed_addr constant [9 x i8] c"%ld %ld\0A\00", align 1
@last_lock = internal global %union.pthread_mutex_t zeroinitializer, align 8
@last = internal global i64 0, align 8

; Function Attrs: noinline nounwind uwtable
define dso_local i32 @main() #0 {
  %1 = alloca [4 x i64], align 16
  %2 = alloca ptr, align 8
  %3 = call i32 @pthread_mutex_init(ptr noundef @total, ptr noundef null) #3
  br label %4

4:                                                ; preds = %11, %0
  %.02 = phi i64 [ 0, %0 ], [ %12, %11 ]
  %5 = icmp slt i64 %.02, 4
  br i1 %5, label %6, label %13

6:                                                ; preds = %4
  %7 = getelementptr inbounds [4 x i64], ptr %1, i64 0, i64 %.02
  %8 = add nsw i64 %.02, 1
  %9 = inttoptr i64 %8 to ptr
  %10 = call i32 @pthread_create(ptr noundef %7, ptr noundef null, ptr noundef @work, ptr noundef %9) #3
  br label %11

11:                                               ; preds = %6
  %12 = add nsw i64 %.02, 1
  br label %4, !llvm.loop !6

13:                                               ; preds = %4
  br label %14

14:                                               ; preds = %23, %13
  %.01 = phi i64 [ 0, %13 ], [ %22, %23 ]
  %.0 = phi i64 [ 0, %13 ], [ %24, %23 ]
  %15 = icmp slt i64 %.0, 4
  br i1 %15, label %16, label %25

16:                                               ; preds = %14
  %17 = getelementptr inbounds [4 x i64], ptr %1, i64 0, i64 %.0
  %18 = load i64, ptr %17, align 8
  %19 = call i32 @pthread_join(i64 noundef %18, ptr noundef %2)
  %20 = load ptr, ptr %2, align 8
  %21 = ptrtoint ptr %20 to i64
  %22 = add nsw i64 %.01, %21
  br label %23

23:                                               ; preds = %16
  %24 = add nsw i64 %.0, 1
  br label %14, !llvm.loop !8

25:                                               ; preds = %14
  %26 = call i32 @pthread_mutex_destroy(ptr noundef @total) #3
  %27 = load i64, ptr getelementptr inbounds (%struct.counter, ptr @total, i32 0, i32 1), align 8
  %28 = call i32 (ptr, ...) @printf(ptr noundef @.str, i64 noundef %27, i64 noundef %.01)
  ret i32 0
}

; Function Attrs: nounwind
declare i32 @pthread_mutex_init(ptr noundef, ptr noundef) #1

; Function Attrs: nounwind
declare i32 @pthread_create(ptr noundef, ptr noundef, ptr noundef, ptr noundef) #1

; Function Attrs: noinline nounwind uwtable
define internal ptr @work(ptr noundef %0) #0 {
  %2 = ptrtoint ptr %0 to i64
  br label %3

3:                                                ; preds = %6, %1
  %.0 = phi i32 [ 0, %1 ], [ %7, %6 ]
  %4 = icmp slt i32 %.0, 3
  br i1 %4, label %5, label %8

5:                                                ; preds = %3
  call void @add(ptr noundef @total, i64 noundef %2)
  br label %6

6:                                                ; preds = %5
  %7 = add nsw i32 %.0, 1
  br label %3, !llvm.loop !9

8:                                                ; preds = %3
  %9 = call i32 @pthread_mutex_lock(ptr noundef @last_lock) #3
  store i64 %2, ptr @last, align 8
  %10 = call i32 @pthread_mutex_unlock(ptr noundef @last_lock) #3
  %11 = mul nsw i64 %2, 2
  %12 = inttoptr i64 %11 to ptr
  ret ptr %12
}

declare i32 @pthread_join(i64 noundef, ptr noundef) #2

; Function Attrs: nounwind
declare i32 @pthread_mutex_destroy(ptr noundef) #1

declare i32 @printf(ptr noundef, ...) #2

; Function Attrs: noinline nounwind uwtable
define internal void @add(ptr noundef %0, i64 noundef %1) #0 {
  %3 = getelementptr inbounds %struct.counter, ptr %0, i32 0, i32 0
  %4 = call i32 @pthread_mutex_trylock(ptr noundef %3) #3
  %5 = icmp ne i32 %4, 0
  br i1 %5, label %6, label %12

6:                                                ; preds = %2
  %7 = getelementptr inbounds %struct.counter, ptr %0, i32 0, i32 0
  %8 = call i32 @pthread_mutex_lock(ptr noundef %7) #3
  %9 = getelementptr inbounds %struct.counter, ptr %0, i32 0, i32 2
  %10 = load i32, ptr %9, align 8
  %11 = add nsw i32 %10, 1
  store i32 %11, ptr %9, align 8
  br label %12

12:                                               ; preds = %6, %2
  %13 = getelementptr inbounds %struct.counter, ptr %0, i32 0, i32 1
  %14 = load i64, ptr %13, align 8
  %15 = add nsw i64 %14, %1
  store i64 %15, ptr %13, align 8
  %16 = getelementptr inbounds %struct.counter, ptr %0, i32 0, i32 0
  %17 = call i32 @pthread_mutex_unlock(ptr noundef %16) #3
  ret void
}

; Function Attrs: nounwind
declare i32 @pthread_mutex_lock(ptr noundef) #1

; Function Attrs: nounwind
declare i32 @pthread_mutex_unlock(ptr noundef) #1

; Function Attrs: nounwind
declare i32 @pthread_mutex_trylock(ptr noundef) #1

attributes #0 = { noinline nounwind uwtable "frame-pointer"="all" "min-legal-vector-width"="0" "no-trapping-math"="true" "stack-protector-buffer-size"="8" "target-cpu"="x86-64" "target-features"="+cmov,+cx8,+fxsr,+mmx,+sse,+sse2,+x87" "tune-cpu"="generic" }
attributes #1 = { nounwind "frame-pointer"="all" "no-trapping-math"="true" "stack-protector-buffer-size"="8" "target-cpu"="x86-64" "target-features"="+cmov,+cx8,+fxsr,+mmx,+sse,+sse2,+x87" "tune-cpu"="generic" }
attributes #2 = { "frame-pointer"="all" "no-trapping-math"="true" "stack-protector-buffer-size"="8" "target-cpu"="x86-64" "target-features"="+cmov,+cx8,+fxsr,+mmx,+sse,+sse2,+x87" "tune-cpu"="generic" }
attributes #3 = { nounwind }

!llvm.module.flags = !{!0, !1, !2, !3, !4}
!llvm.ident = !{!5}

!0 = !{i32 1, !"wchar_size", i32 4}
!1 = !{i32 8, !"PIC Level", i32 2}
!2 = !{i32 7, !"PIE Level", i32 2}
!3 = !{i32 7, !"uwtable", i32 2}
!4 = !{i32 7, !"frame-pointer", i32 2}
!5 = !{!"Debian clang version 19.1.7 (3~deb12u1)"}
!6 = distinct !{!6, !7}
!7 = !{!"llvm.loop.mustprogress"}
!8 = distinct !{!8, !7}
!9 = distinct !{!9, !7}
