; ModuleID = 'records.c'
source_filename = "records.c"
target datalayout = "e-m:e-p270:32:32-p271:32:32-p272:64:64-i64:64-f80:128-n8:16:32:64-S128"
target triple = "x86_64-pc-linux-gnu"

%struct.shape = type { i8, [3 x %struct.point], ptr, ptr }
%struct.point = type { i16, i16 }
%struct.header = type <{ i8, i32, i64 }>
%union.word = type { i32 }

@shapes = internal global [2 x %struct.shape] [%struct.shape { i8 116, [3 x %struct.point] [%struct.point zeroinitializer, %struct.point { i16 4, i16 0 }, %struct.point { i16 0, i16 3 }], ptr @.str.3, ptr getelementptr (i8, ptr @shapes, i64 32) }, %struct.shape { i8 108, [3 x %struct.point] [%struct.point { i16 1, i16 1 }, %struct.point { i16 5, i16 -5 }, %struct.point zeroinitializer], ptr @.str.4, ptr null }], align 16
@corner = internal global ptr getelementptr (i8, ptr @shapes, i64 6), align 8
@.str = private unnamed_addr constant [11 x i8] c"%ld %s %c\0A\00", align 1
@.str.1 = private unnamed_addr constant [11 x i8] c"%u %x %lx\0A\00", align 1
@header = internal global %struct.header <{ i8 1, i32 13, i64 1234605616436508552 }>, align 1
@word = internal global %union.word zeroinitializer, align 4
@.str.2 = private unnamed_addr constant [7 x i8] c"%x %d\0A\00", align 1
@.str.3 = private unnamed_addr constant [9 x i8] c"triangle\00", align 1
@.str.4 = private unnamed_addr constant [5 x i8] c"line\00", align 1
@scales = internal constant [2 x [3 x i16]] [[3 x i16] [i16 1, i16 2, i16 3], [3 x i16] [i16 -1, i16 -2, i16 -3]], align 2

; Function Attrs: noinline nounwind optnone uwtable
define dso_local i32 @main() #0 {
  %1 = alloca i32, align 4
  %2 = alloca i64, align 8
  %3 = alloca ptr, align 8
  %4 = alloca %struct.shape, align 8
  store i32 0, ptr %1, align 4
  call void @llvm.memcpy.p0.p0.i64(ptr align 8 %4, ptr align 16 @shapes, i64 32, i1 false)
  %5 = call i32 @pthread_create(ptr noundef %2, ptr noundef null, ptr noundef @measure, ptr noundef %4) #4
  %6 = load ptr, ptr @corner, align 8
  store i16 40, ptr %6, align 2
  %7 = load i64, ptr %2, align 8
  %8 = call i32 @pthread_join(i64 noundef %7, ptr noundef %3)
  %9 = load ptr, ptr %3, align 8
  %10 = ptrtoint ptr %9 to i64
  %11 = getelementptr inbounds %struct.shape, ptr %4, i32 0, i32 3
  %12 = load ptr, ptr %11, align 8
  %13 = getelementptr inbounds %struct.shape, ptr %12, i32 0, i32 2
  %14 = load ptr, ptr %13, align 8
  %15 = getelementptr inbounds %struct.shape, ptr %4, i32 0, i32 0
  %16 = load i8, ptr %15, align 8
  %17 = sext i8 %16 to i32
  %18 = call i32 (ptr, ...) @printf(ptr noundef @.str, i64 noundef %10, ptr noundef %14, i32 noundef %17)
  %19 = load i32, ptr getelementptr inbounds (%struct.header, ptr @header, i32 0, i32 1), align 1
  %20 = load i32, ptr @word, align 4
  %21 = load i64, ptr getelementptr inbounds (%struct.header, ptr @header, i32 0, i32 2), align 1
  %22 = call i32 (ptr, ...) @printf(ptr noundef @.str.1, i32 noundef %19, i32 noundef %20, i64 noundef %21)
  %23 = load i8, ptr @header, align 1
  store i8 %23, ptr getelementptr inbounds ([4 x i8], ptr @word, i64 0, i64 3), align 1
  %24 = load i32, ptr @word, align 4
  %25 = load i16, ptr getelementptr inbounds (%struct.point, ptr @word, i32 0, i32 1), align 2
  %26 = sext i16 %25 to i32
  %27 = call i32 (ptr, ...) @printf(ptr noundef @.str.2, i32 noundef %24, i32 noundef %26)
  ret i32 0
}

; Function Attrs: argmemonly nocallback nofree nounwind willreturn
declare void @llvm.memcpy.p0.p0.i64(ptr noalias nocapture writeonly, ptr noalias nocapture readonly, i64, i1 immarg) #1

; Function Attrs: nounwind
declare i32 @pthread_create(ptr noundef, ptr noundef, ptr noundef, ptr noundef) #2

; Function Attrs: noinline nounwind optnone uwtable
define internal ptr @measure(ptr noundef %0) #0 {
  %2 = alloca ptr, align 8
  %3 = alloca ptr, align 8
  %4 = alloca i64, align 8
  %5 = alloca i32, align 4
  store ptr %0, ptr %2, align 8
  %6 = load ptr, ptr %2, align 8
  store ptr %6, ptr %3, align 8
  store i64 0, ptr %4, align 8
  br label %7

7:                                                ; preds = %54, %1
  %8 = load ptr, ptr %3, align 8
  %9 = icmp ne ptr %8, null
  br i1 %9, label %10, label %58

10:                                               ; preds = %7
  store i32 0, ptr %5, align 4
  br label %11

11:                                               ; preds = %47, %10
  %12 = load i32, ptr %5, align 4
  %13 = icmp slt i32 %12, 3
  br i1 %13, label %14, label %50

14:                                               ; preds = %11
  %15 = load ptr, ptr %3, align 8
  %16 = getelementptr inbounds %struct.shape, ptr %15, i32 0, i32 1
  %17 = load i32, ptr %5, align 4
  %18 = sext i32 %17 to i64
  %19 = getelementptr inbounds [3 x %struct.point], ptr %16, i64 0, i64 %18
  %20 = getelementptr inbounds %struct.point, ptr %19, i32 0, i32 0
  %21 = load i16, ptr %20, align 2
  %22 = sext i16 %21 to i32
  %23 = load i32, ptr %5, align 4
  %24 = sext i32 %23 to i64
  %25 = getelementptr inbounds [3 x i16], ptr @scales, i64 0, i64 %24
  %26 = load i16, ptr %25, align 2
  %27 = sext i16 %26 to i32
  %28 = mul nsw i32 %22, %27
  %29 = load ptr, ptr %3, align 8
  %30 = getelementptr inbounds %struct.shape, ptr %29, i32 0, i32 1
  %31 = load i32, ptr %5, align 4
  %32 = sext i32 %31 to i64
  %33 = getelementptr inbounds [3 x %struct.point], ptr %30, i64 0, i64 %32
  %34 = getelementptr inbounds %struct.point, ptr %33, i32 0, i32 1
  %35 = load i16, ptr %34, align 2
  %36 = sext i16 %35 to i32
  %37 = load i32, ptr %5, align 4
  %38 = sext i32 %37 to i64
  %39 = getelementptr inbounds [3 x i16], ptr getelementptr inbounds ([2 x [3 x i16]], ptr @scales, i64 0, i64 1), i64 0, i64 %38
  %40 = load i16, ptr %39, align 2
  %41 = sext i16 %40 to i32
  %42 = mul nsw i32 %36, %41
  %43 = sub nsw i32 %28, %42
  %44 = sext i32 %43 to i64
  %45 = load i64, ptr %4, align 8
  %46 = add nsw i64 %45, %44
  store i64 %46, ptr %4, align 8
  br label %47

47:                                               ; preds = %14
  %48 = load i32, ptr %5, align 4
  %49 = add nsw i32 %48, 1
  store i32 %49, ptr %5, align 4
  br label %11, !llvm.loop !6

50:                                               ; preds = %11
  %51 = load ptr, ptr %3, align 8
  %52 = getelementptr inbounds %struct.shape, ptr %51, i32 0, i32 1
  %53 = getelementptr inbounds [3 x %struct.point], ptr %52, i64 0, i64 1
  call void @llvm.memcpy.p0.p0.i64(ptr align 4 @word, ptr align 2 %53, i64 4, i1 false)
  br label %54

54:                                               ; preds = %50
  %55 = load ptr, ptr %3, align 8
  %56 = getelementptr inbounds %struct.shape, ptr %55, i32 0, i32 3
  %57 = load ptr, ptr %56, align 8
  store ptr %57, ptr %3, align 8
  br label %7, !llvm.loop !8

58:                                               ; preds = %7
  %59 = load i64, ptr getelementptr inbounds (%struct.header, ptr @header, i32 0, i32 2), align 1
  %60 = add i64 %59, 1
  store i64 %60, ptr getelementptr inbounds (%struct.header, ptr @header, i32 0, i32 2), align 1
  %61 = load i64, ptr %4, align 8
  %62 = inttoptr i64 %61 to ptr
  ret ptr %62
}

declare i32 @pthread_join(i64 noundef, ptr noundef) #3

declare i32 @printf(ptr noundef, ...) #3

attributes #0 = { noinline nounwind optnone uwtable "frame-pointer"="all" "min-legal-vector-width"="0" "no-trapping-math"="true" "stack-protector-buffer-size"="8" "target-cpu"="x86-64" "target-features"="+cx8,+fxsr,+mmx,+sse,+sse2,+x87" "tune-cpu"="generic" }
attributes #1 = { argmemonly nocallback nofree nounwind willreturn }
attributes #2 = { nounwind "frame-pointer"="all" "no-trapping-math"="true" "stack-protector-buffer-size"="8" "target-cpu"="x86-64" "target-features"="+cx8,+fxsr,+mmx,+sse,+sse2,+x87" "tune-cpu"="generic" }
attributes #3 = { "frame-pointer"="all" "no-trapping-math"="true" "stack-protector-buffer-size"="8" "target-cpu"="x86-64" "target-features"="+cx8,+fxsr,+mmx,+sse,+sse2,+x87" "tune-cpu"="generic" }
attributes #4 = { nounwind }

!llvm.module.flags = !{!0, !1, !2, !3, !4}
!llvm.ident = !{!5}

!0 = !{i32 1, !"wchar_size", i32 4}
!1 = !{i32 7, !"PIC Level", i32 2}
!2 = !{i32 7, !"PIE Level", i32 2}
!3 = !{i32 7, !"uwtable", i32 2}
!4 = !{i32 7, !"frame-pointer", i32 2}
!5 = !{!"Debian clang version 15.0.6"}
!6 = distinct !{!6, !7}
!7 = !{!"llvm.loop.mustprogress"}
!8 = distinct !{!8, !7}
