; ModuleID = '<stdin>'
source_filename = "messages.c"
target datalayout = "e-m:e-p270:32:32-p271:32:32-p272:64:64-i64:64-f80:128-n8:16:32:64-S128"
target triple = "x86_64-pc-linux-gnu"

%union.pthread_mutex_t = type { %struct.__pthread_mutex_s }
%struct.__pthread_mutex_s = type { i32, i32, i32, i32, i32, i16, i16, %struct.__pthread_internal_list }
%struct.__pthread_internal_list = type { ptr, ptr }

@__const.main.title = private unnamed_addr constant [8 x i8] c"page\00\00\00\00", align 1
@page = internal global [48 x i8] zeroinitializer, align 16
@greetings = internal constant [3 x ptr] [ptr @.str.1, ptr @.str.2, ptr @.str.3], align 16
@.str = private unnamed_addr constant [34 x i8] c"%s: %zu bytes, %d missing, 100%%\0A\00", align 1
@used = internal global i64 0, align 8
@page_lock = internal global %union.pthread_mutex_t zeroinitializer, align 8
@.str.1 = private unnamed_addr constant [13 x i8] c"good morning\00", align 1
@.str.2 = private unnamed_addr constant [11 x i8] c"good night\00", align 1
@.str.3 = private unnamed_addr constant [18 x i8] c"a \22quoted\22 \\ word\00", align 1

; Function Attrs: noinline nounwind uwtable
define dso_local i32 @main() #0 {
  %1 = alloca [3 x i64], align 16
  %2 = alloca [8 x i8], align 1
  %3 = alloca ptr, align 8
  call void @llvm.memcpy.p0.p0.i64(ptr align 1 %2, ptr align 1 @__const.main.title, i64 8, i1 false)
  call void @llvm.memset.p0.i64(ptr align 16 @page, i8 46, i64 47, i1 false)
  br label %4

4:                                                ; preds = %12, %0
  %.02 = phi i32 [ 0, %0 ], [ %13, %12 ]
  %5 = icmp slt i32 %.02, 3
  br i1 %5, label %6, label %14

6:                                                ; preds = %4
  %7 = sext i32 %.02 to i64
  %8 = getelementptr inbounds [3 x i64], ptr %1, i64 0, i64 %7
  %9 = sext i32 %.02 to i64
  %10 = getelementptr inbounds [3 x ptr], ptr @greetings, i64 0, i64 %9
  %11 = call i32 @pthread_create(ptr noundef %8, ptr noundef null, ptr noundef @greet, ptr noundef %10) #6
  br label %12

12:                                               ; preds = %6
  %13 = add nsw i32 %.02, 1
  br label %4, !llvm.loop !6

14:                                               ; preds = %4
  br label %15

15:                                               ; preds = %26, %14
  %.01 = phi i32 [ 0, %14 ], [ %25, %26 ]
  %.0 = phi i32 [ 0, %14 ], [ %27, %26 ]
  %16 = icmp slt i32 %.0, 3
  br i1 %16, label %17, label %28

17:                                               ; preds = %15
  %18 = sext i32 %.0 to i64
  %19 = getelementptr inbounds [3 x i64], ptr %1, i64 0, i64 %18
  %20 = load i64, ptr %19, align 8
  %21 = call i32 @pthread_join(i64 noundef %20, ptr noundef %3)
  %22 = load ptr, ptr %3, align 8
  %23 = icmp ne ptr %22, null
  %24 = zext i1 %23 to i32
  %25 = add nsw i32 %.01, %24
  br label %26

26:                                               ; preds = %17
  %27 = add nsw i32 %.0, 1
  br label %15, !llvm.loop !8

28:                                               ; preds = %15
  %29 = getelementptr inbounds [8 x i8], ptr %2, i64 0, i64 0
  %30 = getelementptr inbounds i8, ptr %29, i64 2
  %31 = getelementptr inbounds [8 x i8], ptr %2, i64 0, i64 0
  call void @llvm.memmove.p0.p0.i64(ptr align 1 %30, ptr align 1 %31, i64 5, i1 false)
  %32 = getelementptr inbounds [8 x i8], ptr %2, i64 0, i64 0
  %33 = load i64, ptr @used, align 8
  %34 = call i32 (ptr, ...) @printf(ptr noundef @.str, ptr noundef %32, i64 noundef %33, i32 noundef %.01)
  %35 = call i32 @puts(ptr noundef @page)
  ret i32 0
}

; Function Attrs: argmemonly nocallback nofree nounwind willreturn
declare void @llvm.memcpy.p0.p0.i64(ptr noalias nocapture writeonly, ptr noalias nocapture readonly, i64, i1 immarg) #1

; Function Attrs: argmemonly nocallback nofree nounwind willreturn writeonly
declare void @llvm.memset.p0.i64(ptr nocapture writeonly, i8, i64, i1 immarg) #2

; Function Attrs: nounwind
declare i32 @pthread_create(ptr noundef, ptr noundef, ptr noundef, ptr noundef) #3

; Function Attrs: noinline nounwind uwtable
define internal ptr @greet(ptr noundef %0) #0 {
  %2 = load ptr, ptr %0, align 8
  %3 = call i32 @append(ptr noundef %2)
  %4 = icmp ne i32 %3, 0
  br i1 %4, label %5, label %6

5:                                                ; preds = %1
  br label %7

6:                                                ; preds = %1
  br label %7

7:                                                ; preds = %6, %5
  %8 = phi ptr [ null, %5 ], [ %0, %6 ]
  ret ptr %8
}

declare i32 @pthread_join(i64 noundef, ptr noundef) #4

; Function Attrs: argmemonly nocallback nofree nounwind willreturn
declare void @llvm.memmove.p0.p0.i64(ptr nocapture writeonly, ptr nocapture readonly, i64, i1 immarg) #1

declare i32 @printf(ptr noundef, ...) #4

declare i32 @puts(ptr noundef) #4

; Function Attrs: noinline nounwind uwtable
define internal i32 @append(ptr noundef %0) #0 {
  %2 = call i64 @strlen(ptr noundef %0) #7
  %3 = call i32 @pthread_mutex_lock(ptr noundef @page_lock) #6
  %4 = load i64, ptr @used, align 8
  %5 = add i64 %4, %2
  %6 = add i64 %5, 1
  %7 = icmp ult i64 %6, 48
  %8 = zext i1 %7 to i32
  %9 = icmp ne i32 %8, 0
  br i1 %9, label %10, label %18

10:                                               ; preds = %1
  %11 = load i64, ptr @used, align 8
  %12 = getelementptr inbounds i8, ptr @page, i64 %11
  call void @llvm.memcpy.p0.p0.i64(ptr align 1 %12, ptr align 1 %0, i64 %2, i1 false)
  %13 = load i64, ptr @used, align 8
  %14 = add i64 %13, %2
  store i64 %14, ptr @used, align 8
  %15 = load i64, ptr @used, align 8
  %16 = add i64 %15, 1
  store i64 %16, ptr @used, align 8
  %17 = getelementptr inbounds [48 x i8], ptr @page, i64 0, i64 %15
  store i8 59, ptr %17, align 1
  br label %18

18:                                               ; preds = %10, %1
  %19 = call i32 @pthread_mutex_unlock(ptr noundef @page_lock) #6
  ret i32 %8
}

; Function Attrs: nounwind readonly willreturn
declare i64 @strlen(ptr noundef) #5

; Function Attrs: nounwind
declare i32 @pthread_mutex_lock(ptr noundef) #3

; Function Attrs: nounwind
declare i32 @pthread_mutex_unlock(ptr noundef) #3

attributes #0 = { noinline nounwind uwtable "frame-pointer"="all" "min-legal-vector-width"="0" "no-trapping-math"="true" "stack-protector-buffer-size"="8" "target-cpu"="x86-64" "target-features"="+cx8,+fxsr,+mmx,+sse,+sse2,+x87" "tune-cpu"="generic" }
attributes #1 = { argmemonly nocallback nofree nounwind willreturn }
attributes #2 = { argmemonly nocallback nofree nounwind willreturn writeonly }
attributes #3 = { nounwind "frame-pointer"="all" "no-trapping-math"="true" "stack-protector-buffer-size"="8" "target-cpu"="x86-64" "target-features"="+cx8,+fxsr,+mmx,+sse,+sse2,+x87" "tune-cpu"="generic" }
attributes #4 = { "frame-pointer"="all" "no-trapping-math"="true" "stack-protector-buffer-size"="8" "target-cpu"="x86-64" "target-features"="+cx8,+fxsr,+mmx,+sse,+sse2,+x87" "tune-cpu"="generic" }
attributes #5 = { nounwind readonly willreturn "frame-pointer"="all" "no-trapping-math"="true" "stack-protector-buffer-size"="8" "target-cpu"="x86-64" "target-features"="+cx8,+fxsr,+mmx,+sse,+sse2,+x87" "tune-cpu"="generic" }
attributes #6 = { nounwind }
attributes #7 = { nounwind readonly willreturn }

!llvm.module.flags = !{!0, !1, !2, !3, !4}
!llvm.ident = !{!5}

!0 = !{i32 1, !"wchar_size", i32 4}
!1 = !{i32 7, !"PIC Level", i32 2}
!2 = !{i32 7, !"PIE Level", i32 2}
!3 = !{i32 7, !"uwtable", i32 2}
!4 = !{i32 7, !"frame-pointer", i32 2}
!5 = !{!"Debian clang version 15.0.6"}
!6 = distinct !{!6, !7}
!7 = !{!"llvm.loop.mustprogress"}
!8 = distinct !{!8, !7}
