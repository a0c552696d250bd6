; ModuleID = '<stdin>'
source_filename = "two_locks.c"
target datalayout = "e-m:e-p270:32:32-p271:32:32-p272:64:64-i64:64-i128:128-f80:128-n8:16:32:64-S128"
target triple = "x86_64-pc-linux-gnu"

%struct.account = type { %union.pthread_mutex_t, i64 }
%union.pthread_mutex_t = type { %struct.__pthread_mutex_s }
%struct.__pthread_mutex_s = type { i32, i32, i32, i32, i32, i16, i16, %struct.__pthread_internal_list }
%struct.__pthread_internal_list = type { ptr, ptr }
%struct.transfer = type { ptr, ptr, i64 }

@savings = internal global %struct.account { %union.pthread_mutex_t zeroinitializer, i64 100 }, align 8
@current = internal global %struct.account { %union.pthread_mutex_t zeroinitializer, i64 50 }, align 8
@__const.main.transfers = private unnamed_addr constant [2 x %struct.transfer] [%struct.transfer { ptr @savings, ptr @current, i64 30 }, %struct.transfer { ptr @current, ptr @savings, i64 20 }], align 16
@.str = private unnamed_addr constant [41 x i8] c"savings.balance + current.balance == 150\00", align 1
@.str.1 = private unnamed_addr constant [12 x i8] c"two_locks.c\00", align 1
@__PRETTY_FUNCTION__.main = private unnamed_addr constant [15 x i8] c"int main(void)\00", align 1
@.str.2 = private unnamed_addr constant [9 x i8] c"%ld %ld\0A\00", align 1

; Function Attrs: noinline nounwind uwtable
define dso_local i32 @main() #0 {
  %1 = alloca [2 x i64], align 16
  %2 = alloca [2 x %struct.transfer], align 16
  call void @llvm.memcpy.p0.p0.i64(ptr align 16 %2, ptr align 16 @__const.main.transfers, i64 48, i1 false)
  br label %3

3:                                                ; preds = %13, %0
  %.01 = phi i32 [ 0, %0 ], [ %14, %13 ]
  %4 = icmp slt i32 %.01, 2
  br i1 %4, label %5, label %15

5:                                                ; preds = %3
  %6 = getelementptr inbounds [2 x i64], ptr %1, i64 0, i64 0
  %7 = sext i32 %.01 to i64
  %8 = getelementptr inbounds i64, ptr %6, i64 %7
  %9 = getelementptr inbounds [2 x %struct.transfer], ptr %2, i64 0, i64 0
  %10 = sext i32 %.01 to i64
  %11 = getelementptr inbounds %struct.transfer, ptr %9, i64 %10
  %12 = call i32 @pthread_create(ptr noundef %8, ptr noundef null, ptr noundef @move, ptr noundef %11) #5
  br label %13

13:                                               ; preds = %5
  %14 = add nsw i32 %.01, 1
  br label %3, !llvm.loop !6

15:                                               ; preds = %3
  br label %16

16:                                               ; preds = %23, %15
  %.0 = phi i32 [ 0, %15 ], [ %24, %23 ]
  %17 = icmp slt i32 %.0, 2
  br i1 %17, label %18, label %25

18:                                               ; preds = %16
  %19 = sext i32 %.0 to i64
  %20 = getelementptr inbounds [2 x i64], ptr %1, i64 0, i64 %19
  %21 = load i64, ptr %20, align 8
  %22 = call i32 @pthread_join(i64 noundef %21, ptr noundef null)
  br label %23

23:                                               ; preds = %18
  %24 = add nsw i32 %.0, 1
  br label %16, !llvm.loop !8

25:                                               ; preds = %16
  %26 = load i64, ptr getelementptr inbounds (%struct.account, ptr @savings, i32 0, i32 1), align 8
  %27 = load i64, ptr getelementptr inbounds (%struct.account, ptr @current, i32 0, i32 1), align 8
  %28 = add nsw i64 %26, %27
  %29 = icmp eq i64 %28, 150
  br i1 %29, label %30, label %31

30:                                               ; preds = %25
  br label %32

31:                                               ; preds = %25
  call void @__assert_fail(ptr noundef @.str, ptr noundef @.str.1, i32 noundef 43, ptr noundef @__PRETTY_FUNCTION__.main) #6
  unreachable

32:                                               ; preds = %30
  %33 = load i64, ptr getelementptr inbounds (%struct.account, ptr @savings, i32 0, i32 1), align 8
  %34 = load i64, ptr getelementptr inbounds (%struct.account, ptr @current, i32 0, i32 1), align 8
  %35 = call i32 (ptr, ...) @printf(ptr noundef @.str.2, i64 noundef %33, i64 noundef %34)
  ret i32 0
}

; Function Attrs: nocallback nofree nounwind willreturn memory(argmem: readwrite)
declare void @llvm.memcpy.p0.p0.i64(ptr noalias nocapture writeonly, ptr noalias nocapture readonly, i64, i1 immarg) #1

; Function Attrs: nounwind
declare i32 @pthread_create(ptr noundef, ptr noundef, ptr noundef, ptr noundef) #2

; Function Attrs: noinline nounwind uwtable
define internal ptr @move(ptr noundef %0) #0 {
  %2 = getelementptr inbounds %struct.transfer, ptr %0, i32 0, i32 0
  %3 = load ptr, ptr %2, align 8
  %4 = getelementptr inbounds %struct.account, ptr %3, i32 0, i32 0
  %5 = call i32 @pthread_mutex_lock(ptr noundef %4) #5
  %6 = getelementptr inbounds %struct.transfer, ptr %0, i32 0, i32 1
  %7 = load ptr, ptr %6, align 8
  %8 = getelementptr inbounds %struct.account, ptr %7, i32 0, i32 0
  %9 = call i32 @pthread_mutex_lock(ptr noundef %8) #5
  %10 = getelementptr inbounds %struct.transfer, ptr %0, i32 0, i32 0
  %11 = load ptr, ptr %10, align 8
  %12 = getelementptr inbounds %struct.account, ptr %11, i32 0, i32 1
  %13 = load i64, ptr %12, align 8
  %14 = getelementptr inbounds %struct.transfer, ptr %0, i32 0, i32 2
  %15 = load i64, ptr %14, align 8
  %16 = icmp sge i64 %13, %15
  br i1 %16, label %17, label %32

17:                                               ; preds = %1
  %18 = getelementptr inbounds %struct.transfer, ptr %0, i32 0, i32 2
  %19 = load i64, ptr %18, align 8
  %20 = getelementptr inbounds %struct.transfer, ptr %0, i32 0, i32 0
  %21 = load ptr, ptr %20, align 8
  %22 = getelementptr inbounds %struct.account, ptr %21, i32 0, i32 1
  %23 = load i64, ptr %22, align 8
  %24 = sub nsw i64 %23, %19
  store i64 %24, ptr %22, align 8
  %25 = getelementptr inbounds %struct.transfer, ptr %0, i32 0, i32 2
  %26 = load i64, ptr %25, align 8
  %27 = getelementptr inbounds %struct.transfer, ptr %0, i32 0, i32 1
  %28 = load ptr, ptr %27, align 8
  %29 = getelementptr inbounds %struct.account, ptr %28, i32 0, i32 1
  %30 = load i64, ptr %29, align 8
  %31 = add nsw i64 %30, %26
  store i64 %31, ptr %29, align 8
  br label %32

32:                                               ; preds = %17, %1
  %33 = getelementptr inbounds %struct.transfer, ptr %0, i32 0, i32 1
  %34 = load ptr, ptr %33, align 8
  %35 = getelementptr inbounds %struct.account, ptr %34, i32 0, i32 0
  %36 = call i32 @pthread_mutex_unlock(ptr noundef %35) #5
  %37 = getelementptr inbounds %struct.transfer, ptr %0, i32 0, i32 0
  %38 = load ptr, ptr %37, align 8
  %39 = getelementptr inbounds %struct.account, ptr %38, i32 0, i32 0
  %40 = call i32 @pthread_mutex_unlock(ptr noundef %39) #5
  ret ptr null
}

declare i32 @pthread_join(i64 noundef, ptr noundef) #3

; Function Attrs: noreturn nounwind
declare void @__assert_fail(ptr noundef, ptr noundef, i32 noundef, ptr noundef) #4

declare i32 @printf(ptr noundef, ...) #3

; Function Attrs: nounwind
declare i32 @pthread_mutex_lock(ptr noundef) #2

; Function Attrs: nounwind
declare i32 @pthread_mutex_unlock(ptr noundef) #2

attributes #0 = { noinline nounwind uwtable "frame-pointer"="all" "min-legal-vector-width"="0" "no-trapping-math"="true" "stack-protector-buffer-size"="8" "target-cpu"="x86-64" "target-features"="+cmov,+cx8,+fxsr,+mmx,+sse,+sse2,+x87" "tune-cpu"="generic" }
attributes #1 = { nocallback nofree nounwind willreturn memory(argmem: readwrite) }
attributes #2 = { nounwind "frame-pointer"="all" "no-trapping-math"="true" "stack-protector-buffer-size"="8" "target-cpu"="x86-64" "target-features"="+cmov,+cx8,+fxsr,+mmx,+sse,+sse2,+x87" "tune-cpu"="generic" }
attributes #3 = { "frame-pointer"="all" "no-trapping-math"="true" "stack-protector-buffer-size"="8" "target-cpu"="x86-64" "target-features"="+cmov,+cx8,+fxsr,+mmx,+sse,+sse2,+x87" "tune-cpu"="generic" }
attributes #4 = { noreturn nounwind "frame-pointer"="all" "no-trapping-math"="true" "stack-protector-buffer-size"="8" "target-cpu"="x86-64" "target-features"="+cmov,+cx8,+fxsr,+mmx,+sse,+sse2,+x87" "tune-cpu"="generic" }
attributes #5 = { nounwind }
attributes #6 = { noreturn nounwind }

!llvm.module.flags = !{!0, !1, !2, !3, !4}
!llvm.ident = !{!5}

!0 = !{i32 1, !"wchar_size", i32 4}
!1 = !{i32 8, !"PIC Level", i32 2}
!2 = !{i32 7, !"PIE Level", i32 2}
!3 = !{i32 7, !"uwtable", i32 2}
!4 = !{i32 7, !"frame-pointer", i32 2}
!5 = !{!"Debian clang version 19.1.7 (3~deb12u1)"}
!6 = distinct !{!6, !7}
!7 = !{!"llvm.loop.mustprogress"}
!8 = distinct !{!8, !7}
