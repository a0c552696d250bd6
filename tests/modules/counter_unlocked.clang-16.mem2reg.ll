; ModuleID = '<stdin>'
source_filename = "counter_unlocked.c"
target datalayout = "e-m:e-p270:32:32-p271:32:32-p272:64:64-i64:64-f80:128-n8:16:32:64-S128"
target triple = "x86_64-pc-linux-gnu"

@__const.main.steps = private unnamed_addr constant [3 x i32] [i32 1, i32 10, i32 100], align 4
@.str = private unnamed_addr constant [10 x i8] c"no thread\00", align 1
@.str.1 = private unnamed_addr constant [30 x i8] c"counter %ld after %u threads\0A\00", align 1
@counter = internal global i64 0, align 8
@finished = internal global i16 0, align 2

; Function Attrs: noinline nounwind uwtable
define dso_local i32 @main() #0 {
  %1 = alloca [3 x i64], align 16
  %2 = alloca [3 x i32], align 4
  call void @llvm.memcpy.p0.p0.i64(ptr align 4 %2, ptr align 4 @__const.main.steps, i64 12, i1 false)
  br label %3

3:                                                ; preds = %15, %0
  %.01 = phi i32 [ 0, %0 ], [ %16, %15 ]
  %4 = icmp slt i32 %.01, 3
  br i1 %4, label %5, label %17

5:                                                ; preds = %3
  %6 = sext i32 %.01 to i64
  %7 = getelementptr inbounds [3 x i64], ptr %1, i64 0, i64 %6
  %8 = sext i32 %.01 to i64
  %9 = getelementptr inbounds [3 x i32], ptr %2, i64 0, i64 %8
  %10 = call i32 @pthread_create(ptr noundef %7, ptr noundef null, ptr noundef @count, ptr noundef %9) #4
  %11 = icmp ne i32 %10, 0
  br i1 %11, label %12, label %14

12:                                               ; preds = %5
  %13 = call i32 @puts(ptr noundef @.str)
  br label %36

14:                                               ; preds = %5
  br label %15

15:                                               ; preds = %14
  %16 = add nsw i32 %.01, 1
  br label %3, !llvm.loop !6

17:                                               ; preds = %3
  br label %18

18:                                               ; preds = %25, %17
  %.02 = phi i32 [ 0, %17 ], [ %26, %25 ]
  %19 = icmp slt i32 %.02, 3
  br i1 %19, label %20, label %27

20:                                               ; preds = %18
  %21 = sext i32 %.02 to i64
  %22 = getelementptr inbounds [3 x i64], ptr %1, i64 0, i64 %21
  %23 = load i64, ptr %22, align 8
  %24 = call i32 @pthread_join(i64 noundef %23, ptr noundef null)
  br label %25

25:                                               ; preds = %20
  %26 = add nsw i32 %.02, 1
  br label %18, !llvm.loop !8

27:                                               ; preds = %18
  %28 = load i64, ptr @counter, align 8
  %29 = load i16, ptr @finished, align 2
  %30 = zext i16 %29 to i32
  %31 = call i32 (ptr, ...) @printf(ptr noundef @.str.1, i64 noundef %28, i32 noundef %30)
  %32 = load i64, ptr @counter, align 8
  %33 = icmp eq i64 %32, 444
  %34 = zext i1 %33 to i64
  %35 = select i1 %33, i32 0, i32 2
  br label %36

36:                                               ; preds = %27, %12
  %.0 = phi i32 [ 1, %12 ], [ %35, %27 ]
  ret i32 %.0
}

; Function Attrs: nocallback nofree nounwind willreturn memory(argmem: readwrite)
declare void @llvm.memcpy.p0.p0.i64(ptr noalias nocapture writeonly, ptr noalias nocapture readonly, i64, i1 immarg) #1

; Function Attrs: nounwind
declare i32 @pthread_create(ptr noundef, ptr noundef, ptr noundef, ptr noundef) #2

; Function Attrs: noinline nounwind uwtable
define internal ptr @count(ptr noundef %0) #0 {
  %2 = load i32, ptr %0, align 4
  br label %3

3:                                                ; preds = %9, %1
  %.0 = phi i32 [ 0, %1 ], [ %10, %9 ]
  %4 = icmp slt i32 %.0, 4
  br i1 %4, label %5, label %11

5:                                                ; preds = %3
  %6 = sext i32 %2 to i64
  %7 = load i64, ptr @counter, align 8
  %8 = add nsw i64 %7, %6
  store i64 %8, ptr @counter, align 8
  br label %9

9:                                                ; preds = %5
  %10 = add nsw i32 %.0, 1
  br label %3, !llvm.loop !9

11:                                               ; preds = %3
  %12 = load i16, ptr @finished, align 2
  %13 = add i16 %12, 1
  store i16 %13, ptr @finished, align 2
  ret ptr null
}

declare i32 @puts(ptr noundef) #3

declare i32 @pthread_join(i64 noundef, ptr noundef) #3

declare i32 @printf(ptr noundef, ...) #3

attributes #0 = { noinline nounwind uwtable "frame-pointer"="all" "min-legal-vector-width"="0" "no-trapping-math"="true" "stack-protector-buffer-size"="8" "target-cpu"="x86-64" "target-features"="+cx8,+fxsr,+mmx,+sse,+sse2,+x87" "tune-cpu"="generic" }
attributes #1 = { nocallback nofree nounwind willreturn memory(argmem: readwrite) }
attributes #2 = { nounwind "frame-pointer"="all" "no-trapping-math"="true" "stack-protector-buffer-size"="8" "target-cpu"="x86-64" "target-features"="+cx8,+fxsr,+mmx,+sse,+sse2,+x87" "tune-cpu"="generic" }
attributes #3 = { "frame-pointer"="all" "no-trapping-math"="true" "stack-protector-buffer-size"="8" "target-cpu"="x86-64" "target-features"="+cx8,+fxsr,+mmx,+sse,+sse2,+x87" "tune-cpu"="generic" }
attributes #4 = { nounwind }

!llvm.module.flags = !{!0, !1, !2, !3, !4}
!llvm.ident = !{!5}

!0 = !{i32 1, !"wchar_size", i32 4}
!1 = !{i32 8, !"PIC Level", i32 2}
!2 = !{i32 7, !"PIE Level", i32 2}
!3 = !{i32 7, !"uwtable", i32 2}
!4 = !{i32 7, !"frame-pointer", i32 2}
!5 = !{!"Debian clang version 16.0.6 (15~deb12u1)"}
!6 = distinct !{!6, !7}
!7 = !{!"llvm.loop.mustprogress"}
!8 = distinct !{!8, !7}
!9 = distinct !{!9, !7}
