; ModuleID = '<stdin>'
source_filename = "records.c"
target datalayout = "e-m:e-p270:32:32-p271:32:32-p272:64:64-i64:64-i128:128-f80:128-n8:16:32:64-S128"
target triple = "x86_64-pc-linux-gnu"

%struct.header = type <{ i8, i32, i64 }>
%union.word = type { i32 }
%struct.point = type { i16, i16 }
%struct.shape = type { i8, [3 x %struct.point], ptr, ptr }

@corner = internal global ptr getelementptr (i8, ptr @shapes, i64 6), align 8
@.str = private unnamed_addr constant [11 x i8] c"%ld %s %c\0A\00", align 1
@.str.1 = private unnamed_addr constant [11 x i8] c"%u %x %lx\0A\00", align 1
@header = internal global %struct.header <{ i8 1, i32 13, i64 1234605616436508552 }>, align 1
@word = internal global %union.word zeroinitializer, align 4
@.str.2 = private unnamed_addr constant [7 x i8] c"%x %d\0A\00", align 1
@.str.3 = private unnamed_addr constant [9 x i8] c"triangle\00", align 1
@.str.4 = private unnamed_addr constant [5 x i8] c"line\00", align 1
@shapes = internal global [2 x { i8, i8, [3 x %struct.point], [2 x i8], ptr, ptr }] [{ i8, i8, [3 x %struct.point], [2 x i8], ptr, ptr } { i8 116, i8 0, [3 x %struct.point] [%struct.point zeroinitializer, %struct.point { i16 4, i16 0 }, %struct.point { i16 0, i16 3 }], [2 x i8] zeroinitializer, ptr @.str.3, ptr getelementptr (i8, ptr @shapes, i64 32) }, { i8, i8, [3 x %struct.point], [2 x i8], ptr, ptr } { i8 108, i8 0, [3 x %struct.point] [%struct.point { i16 1, i16 1 }, %struct.point { i16 5, i16 -5 }, %struct.point zeroinitializer], [2 x i8] zeroinitializer, ptr @.str.4, ptr null }], align 16
@scales = internal constant [2 x [3 x i16]] [[3 x i16] [i16 1, i16 2, i16 3], [3 x i16] [i16 -1, i16 -2, i16 -3]], align 2

; Function Attrs: noinline nounwind uwtable
define dso_local i32 @main() #0 {
  %1 = alloca i64, align 8
  %2 = alloca ptr, align 8
  %3 = alloca %struct.shape, align 8
  call void @llvm.memcpy.p0.p0.i64(ptr align 8 %3, ptr align 16 @shapes, i64 32, i1 false)
  %4 = call i32 @pthread_create(ptr noundef %1, ptr noundef null, ptr noundef @measure, ptr noundef %3) #4
  %5 = load ptr, ptr @corner, align 8
  store i16 40, ptr %5, align 2
  %6 = load i64, ptr %1, align 8
  %7 = call i32 @pthread_join(i64 noundef %6, ptr noundef %2)
  %8 = load ptr, ptr %2, align 8
  %9 = ptrtoint ptr %8 to i64
  %10 = getelementptr inbounds nuw %struct.shape, ptr %3, i32 0, i32 3
  %11 = load ptr, ptr %10, align 8
  %12 = getelementptr inbounds nuw %struct.shape, ptr %11, i32 0, i32 2
  %13 = load ptr, ptr %12, align 8
  %14 = getelementptr inbounds nuw %struct.shape, ptr %3, i32 0, i32 0
  %15 = load i8, ptr %14, align 8
  %16 = sext i8 %15 to i32
  %17 = call i32 (ptr, ...) @printf(ptr noundef @.str, i64 noundef %9, ptr noundef %13, i32 noundef %16)
  %18 = load i32, ptr getelementptr inbounds nuw (%struct.header, ptr @header, i32 0, i32 1), align 1
  %19 = load i32, ptr @word, align 4
  %20 = load i64, ptr getelementptr inbounds nuw (%struct.header, ptr @header, i32 0, i32 2), align 1
  %21 = call i32 (ptr, ...) @printf(ptr noundef @.str.1, i32 noundef %18, i32 noundef %19, i64 noundef %20)
  %22 = load i8, ptr @header, align 1
  store i8 %22, ptr getelementptr inbounds ([4 x i8], ptr @word, i64 0, i64 3), align 1
  %23 = load i32, ptr @word, align 4
  %24 = load i16, ptr getelementptr inbounds nuw (%struct.point, ptr @word, i32 0, i32 1), align 2
  %25 = sext i16 %24 to i32
  %26 = call i32 (ptr, ...) @printf(ptr noundef @.str.2, i32 noundef %23, i32 noundef %25)
  ret i32 0
}

; Function Attrs: nocallback nofree nounwind willreturn memory(argmem: readwrite)
declare void @llvm.memcpy.p0.p0.i64(ptr noalias writeonly captures(none), ptr noalias readonly captures(none), i64, i1 immarg) #1

; Function Attrs: nounwind
declare i32 @pthread_create(ptr noundef, ptr noundef, ptr noundef, ptr noundef) #2

; Function Attrs: noinline nounwind uwtable
define internal ptr @measure(ptr noundef %0) #0 {
  br label %2

2:                                                ; preds = %38, %1
  %.02 = phi i64 [ 0, %1 ], [ %.1, %38 ]
  %.01 = phi ptr [ %0, %1 ], [ %40, %38 ]
  %3 = icmp ne ptr %.01, null
  br i1 %3, label %4, label %41

4:                                                ; preds = %2
  br label %5

5:                                                ; preds = %33, %4
  %.1 = phi i64 [ %.02, %4 ], [ %32, %33 ]
  %.0 = phi i32 [ 0, %4 ], [ %34, %33 ]
  %6 = icmp slt i32 %.0, 3
  br i1 %6, label %7, label %35

7:                                                ; preds = %5
  %8 = getelementptr inbounds nuw %struct.shape, ptr %.01, i32 0, i32 1
  %9 = sext i32 %.0 to i64
  %10 = getelementptr inbounds [3 x %struct.point], ptr %8, i64 0, i64 %9
  %11 = getelementptr inbounds nuw %struct.point, ptr %10, i32 0, i32 0
  %12 = load i16, ptr %11, align 2
  %13 = sext i16 %12 to i32
  %14 = sext i32 %.0 to i64
  %15 = getelementptr inbounds [3 x i16], ptr @scales, i64 0, i64 %14
  %16 = load i16, ptr %15, align 2
  %17 = sext i16 %16 to i32
  %18 = mul nsw i32 %13, %17
  %19 = getelementptr inbounds nuw %struct.shape, ptr %.01, i32 0, i32 1
  %20 = sext i32 %.0 to i64
  %21 = getelementptr inbounds [3 x %struct.point], ptr %19, i64 0, i64 %20
  %22 = getelementptr inbounds nuw %struct.point, ptr %21, i32 0, i32 1
  %23 = load i16, ptr %22, align 2
  %24 = sext i16 %23 to i32
  %25 = sext i32 %.0 to i64
  %26 = getelementptr inbounds [3 x i16], ptr getelementptr inbounds ([2 x [3 x i16]], ptr @scales, i64 0, i64 1), i64 0, i64 %25
  %27 = load i16, ptr %26, align 2
  %28 = sext i16 %27 to i32
  %29 = mul nsw i32 %24, %28
  %30 = sub nsw i32 %18, %29
  %31 = sext i32 %30 to i64
  %32 = add nsw i64 %.1, %31
  br label %33

33:                                               ; preds = %7
  %34 = add nsw i32 %.0, 1
  br label %5, !llvm.loop !6

35:                                               ; preds = %5
  %36 = getelementptr inbounds nuw %struct.shape, ptr %.01, i32 0, i32 1
  %37 = getelementptr inbounds [3 x %struct.point], ptr %36, i64 0, i64 1
  call void @llvm.memcpy.p0.p0.i64(ptr align 4 @word, ptr align 2 %37, i64 4, i1 false)
  br label %38

38:                                               ; preds = %35
  %39 = getelementptr inbounds nuw %struct.shape, ptr %.01, i32 0, i32 3
  %40 = load ptr, ptr %39, align 8
  br label %2, !llvm.loop !8

41:                                               ; preds = %2
  %42 = load i64, ptr getelementptr inbounds nuw (%struct.header, ptr @header, i32 0, i32 2), align 1
  %43 = add i64 %42, 1
  store i64 %43, ptr getelementptr inbounds nuw (%struct.header, ptr @header, i32 0, i32 2), align 1
  %44 = inttoptr i64 %.02 to ptr
  ret ptr %44
}

declare i32 @pthread_join(i64 noundef, ptr noundef) #3

declare i32 @printf(ptr noundef, ...) #3

attributes #0 = { noinline nounwind uwtable "frame-pointer"="all" "min-legal-vector-width"="0" "no-trapping-math"="true" "stack-protector-buffer-size"="8" "target-cpu"="x86-64" "target-features"="+cmov,+cx8,+fxsr,+mmx,+sse,+sse2,+x87" "tune-cpu"="generic" }
attributes #1 = { nocallback nofree nounwind willreturn memory(argmem: readwrite) }
attributes #2 = { nounwind "frame-pointer"="all" "no-trapping-math"="true" "stack-protector-buffer-size"="8" "target-cpu"="x86-64" "target-features"="+cmov,+cx8,+fxsr,+mmx,+sse,+sse2,+x87" "tune-cpu"="generic" }
attributes #3 = { "frame-pointer"="all" "no-trapping-math"="true" "stack-protector-buffer-size"="8" "target-cpu"="x86-64" "target-features"="+cmov,+cx8,+fxsr,+mmx,+sse,+sse2,+x87" "tune-cpu"="generic" }
attributes #4 = { nounwind }

!llvm.module.flags = !{!0, !1, !2, !3, !4}
!llvm.ident = !{!5}

!0 = !{i32 1, !"wchar_size", i32 4}
!1 = !{i32 8, !"PIC Level", i32 2}
!2 = !{i32 7, !"PIE Level", i32 2}
!3 = !{i32 7, !"uwtable", i32 2}
!4 = !{i32 7, !"frame-pointer", i32 2}
!5 = !{!"Debian clang version 22.1.8 (1~deb12u1)"}
!6 = distinct !{!6, !7}
!7 = !{!"llvm.loop.mustprogress"}
!8 = distinct !{!8, !7}
