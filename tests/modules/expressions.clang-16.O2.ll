; ModuleID = 'expressions.c'
source_filename = "expressions.c"
target datalayout = "e-m:e-p270:32:32-p271:32:32-p272:64:64-i64:64-f80:128-n8:16:32:64-S128"
target triple = "x86_64-pc-linux-gnu"

%struct.tree = type { i32, i32, ptr, ptr }

@root = internal global %struct.tree { i32 1, i32 0, ptr @product, ptr @negated }, align 8
@.str = private unnamed_addr constant [12 x i8] c"%ld %ld %d\0A\00", align 1
@.str.1 = private unnamed_addr constant [8 x i8] c"%u %ld\0A\00", align 1
@.str.2 = private unnamed_addr constant [10 x i8] c"%s %s %s\0A\00", align 1
@product = internal global %struct.tree { i32 2, i32 0, ptr @leaves, ptr getelementptr (i8, ptr @leaves, i64 24) }, align 8
@negated = internal global %struct.tree { i32 4, i32 0, ptr @quotient, ptr null }, align 8
@leaves = internal global [4 x %struct.tree] [%struct.tree { i32 0, i32 7, ptr null, ptr null }, %struct.tree { i32 0, i32 -3, ptr null, ptr null }, %struct.tree { i32 0, i32 100, ptr null, ptr null }, %struct.tree { i32 0, i32 9, ptr null, ptr null }], align 16
@quotient = internal global %struct.tree { i32 3, i32 0, ptr getelementptr (i8, ptr @leaves, i64 48), ptr getelementptr (i8, ptr @leaves, i64 72) }, align 8
@nodes = internal unnamed_addr global i32 0, align 4
@.str.3 = private unnamed_addr constant [6 x i8] c"below\00", align 1
@.str.4 = private unnamed_addr constant [6 x i8] c"small\00", align 1
@.str.5 = private unnamed_addr constant [6 x i8] c"large\00", align 1

; Function Attrs: nounwind uwtable
define dso_local i32 @main() local_unnamed_addr #0 {
  %1 = alloca i64, align 8
  %2 = alloca i64, align 8
  %3 = alloca ptr, align 8
  %4 = alloca ptr, align 8
  call void @llvm.lifetime.start.p0(i64 8, ptr nonnull %1) #7
  call void @llvm.lifetime.start.p0(i64 8, ptr nonnull %2) #7
  call void @llvm.lifetime.start.p0(i64 8, ptr nonnull %3) #7
  call void @llvm.lifetime.start.p0(i64 8, ptr nonnull %4) #7
  %5 = load ptr, ptr getelementptr inbounds (%struct.tree, ptr @root, i64 0, i32 2), align 8, !tbaa !5
  %6 = call i32 @pthread_create(ptr noundef nonnull %1, ptr noundef null, ptr noundef nonnull @evaluate, ptr noundef %5) #7
  %7 = load ptr, ptr getelementptr inbounds (%struct.tree, ptr @root, i64 0, i32 3), align 8, !tbaa !11
  %8 = call i32 @pthread_create(ptr noundef nonnull %2, ptr noundef null, ptr noundef nonnull @evaluate, ptr noundef %7) #7
  %9 = load i64, ptr %1, align 8, !tbaa !12
  %10 = call i32 @pthread_join(i64 noundef %9, ptr noundef nonnull %3) #7
  %11 = load i64, ptr %2, align 8, !tbaa !12
  %12 = call i32 @pthread_join(i64 noundef %11, ptr noundef nonnull %4) #7
  %13 = load ptr, ptr %3, align 8, !tbaa !14
  %14 = ptrtoint ptr %13 to i64
  %15 = load ptr, ptr %4, align 8, !tbaa !14
  %16 = ptrtoint ptr %15 to i64
  %17 = call fastcc i32 @value(ptr noundef nonnull @root)
  %18 = call i32 (ptr, ...) @printf(ptr noundef nonnull dereferenceable(1) @.str, i64 noundef %14, i64 noundef %16, i32 noundef %17)
  %19 = call fastcc i32 @fibonacci(i32 noundef 8)
  %20 = call i32 (ptr, ...) @printf(ptr noundef nonnull dereferenceable(1) @.str.1, i32 noundef %19, i64 noundef 28000361399)
  %21 = call i32 (ptr, ...) @printf(ptr noundef nonnull dereferenceable(1) @.str.2, ptr noundef nonnull @.str.3, ptr noundef nonnull @.str.4, ptr noundef nonnull @.str.5)
  call void @llvm.lifetime.end.p0(i64 8, ptr nonnull %4) #7
  call void @llvm.lifetime.end.p0(i64 8, ptr nonnull %3) #7
  call void @llvm.lifetime.end.p0(i64 8, ptr nonnull %2) #7
  call void @llvm.lifetime.end.p0(i64 8, ptr nonnull %1) #7
  ret i32 0
}

; Function Attrs: mustprogress nocallback nofree nosync nounwind willreturn memory(argmem: readwrite)
declare void @llvm.lifetime.start.p0(i64 immarg, ptr nocapture) #1

; Function Attrs: nounwind
declare i32 @pthread_create(ptr noundef, ptr noundef, ptr noundef, ptr noundef) local_unnamed_addr #2

; Function Attrs: nounwind uwtable
define internal ptr @evaluate(ptr nocapture noundef readonly %0) #0 {
  %2 = tail call fastcc i32 @value(ptr noundef %0)
  %3 = sext i32 %2 to i64
  %4 = inttoptr i64 %3 to ptr
  ret ptr %4
}

declare i32 @pthread_join(i64 noundef, ptr noundef) local_unnamed_addr #3

; Function Attrs: nofree nounwind
declare noundef i32 @printf(ptr nocapture noundef readonly, ...) local_unnamed_addr #4

; Function Attrs: nounwind uwtable
define internal fastcc i32 @value(ptr nocapture noundef readonly %0) unnamed_addr #0 {
  br label %2

2:                                                ; preds = %12, %1
  %3 = phi i32 [ 0, %1 ], [ %18, %12 ]
  %4 = phi ptr [ %0, %1 ], [ %17, %12 ]
  %5 = load i32, ptr @nodes, align 4, !tbaa !15
  %6 = add nsw i32 %5, 1
  store i32 %6, ptr @nodes, align 4, !tbaa !15
  %7 = load i32, ptr %4, align 8, !tbaa !16
  switch i32 %7, label %44 [
    i32 0, label %8
    i32 1, label %12
    i32 2, label %21
    i32 3, label %30
    i32 4, label %39
  ]

8:                                                ; preds = %2
  %9 = getelementptr inbounds %struct.tree, ptr %4, i64 0, i32 1
  %10 = load i32, ptr %9, align 4, !tbaa !17
  %11 = add nsw i32 %10, %3
  br label %19

12:                                               ; preds = %2
  %13 = getelementptr inbounds %struct.tree, ptr %4, i64 0, i32 2
  %14 = load ptr, ptr %13, align 8, !tbaa !5
  %15 = tail call fastcc i32 @value(ptr noundef %14)
  %16 = getelementptr inbounds %struct.tree, ptr %4, i64 0, i32 3
  %17 = load ptr, ptr %16, align 8, !tbaa !11
  %18 = add nsw i32 %15, %3
  br label %2

19:                                               ; preds = %39, %30, %21, %8
  %20 = phi i32 [ %11, %8 ], [ %29, %21 ], [ %38, %30 ], [ %43, %39 ]
  ret i32 %20

21:                                               ; preds = %2
  %22 = getelementptr inbounds %struct.tree, ptr %4, i64 0, i32 2
  %23 = load ptr, ptr %22, align 8, !tbaa !5
  %24 = tail call fastcc i32 @value(ptr noundef %23)
  %25 = getelementptr inbounds %struct.tree, ptr %4, i64 0, i32 3
  %26 = load ptr, ptr %25, align 8, !tbaa !11
  %27 = tail call fastcc i32 @value(ptr noundef %26)
  %28 = mul nsw i32 %27, %24
  %29 = add nsw i32 %28, %3
  br label %19

30:                                               ; preds = %2
  %31 = getelementptr inbounds %struct.tree, ptr %4, i64 0, i32 2
  %32 = load ptr, ptr %31, align 8, !tbaa !5
  %33 = tail call fastcc i32 @value(ptr noundef %32)
  %34 = getelementptr inbounds %struct.tree, ptr %4, i64 0, i32 3
  %35 = load ptr, ptr %34, align 8, !tbaa !11
  %36 = tail call fastcc i32 @value(ptr noundef %35)
  %37 = sdiv i32 %33, %36
  %38 = add nsw i32 %37, %3
  br label %19

39:                                               ; preds = %2
  %40 = getelementptr inbounds %struct.tree, ptr %4, i64 0, i32 2
  %41 = load ptr, ptr %40, align 8, !tbaa !5
  %42 = tail call fastcc i32 @value(ptr noundef %41)
  %43 = sub i32 %3, %42
  br label %19

44:                                               ; preds = %2
  tail call void @abort() #8
  unreachable
}

; Function Attrs: nofree nosync nounwind memory(none) uwtable
define internal fastcc i32 @fibonacci(i32 noundef %0) unnamed_addr #5 {
  %2 = icmp ult i32 %0, 2
  br i1 %2, label %11, label %3

3:                                                ; preds = %1, %3
  %4 = phi i32 [ %8, %3 ], [ %0, %1 ]
  %5 = phi i32 [ %9, %3 ], [ 0, %1 ]
  %6 = add i32 %4, -1
  %7 = tail call fastcc i32 @fibonacci(i32 noundef %6)
  %8 = add i32 %4, -2
  %9 = add i32 %7, %5
  %10 = icmp ult i32 %8, 2
  br i1 %10, label %11, label %3

11:                                               ; preds = %3, %1
  %12 = phi i32 [ 0, %1 ], [ %9, %3 ]
  %13 = phi i32 [ %0, %1 ], [ %8, %3 ]
  %14 = add i32 %13, %12
  ret i32 %14
}

; Function Attrs: mustprogress nocallback nofree nosync nounwind willreturn memory(argmem: readwrite)
declare void @llvm.lifetime.end.p0(i64 immarg, ptr nocapture) #1

; Function Attrs: noreturn nounwind
declare void @abort() local_unnamed_addr #6

attributes #0 = { nounwind uwtable "min-legal-vector-width"="0" "no-trapping-math"="true" "stack-protector-buffer-size"="8" "target-cpu"="x86-64" "target-features"="+cx8,+fxsr,+mmx,+sse,+sse2,+x87" "tune-cpu"="generic" }
attributes #1 = { mustprogress nocallback nofree nosync nounwind willreturn memory(argmem: readwrite) }
attributes #2 = { nounwind "no-trapping-math"="true" "stack-protector-buffer-size"="8" "target-cpu"="x86-64" "target-features"="+cx8,+fxsr,+mmx,+sse,+sse2,+x87" "tune-cpu"="generic" }
attributes #3 = { "no-trapping-math"="true" "stack-protector-buffer-size"="8" "target-cpu"="x86-64" "target-features"="+cx8,+fxsr,+mmx,+sse,+sse2,+x87" "tune-cpu"="generic" }
attributes #4 = { nofree nounwind "no-trapping-math"="true" "stack-protector-buffer-size"="8" "target-cpu"="x86-64" "target-features"="+cx8,+fxsr,+mmx,+sse,+sse2,+x87" "tune-cpu"="generic" }
attributes #5 = { nofree nosync nounwind memory(none) uwtable "min-legal-vector-width"="0" "no-trapping-math"="true" "stack-protector-buffer-size"="8" "target-cpu"="x86-64" "target-features"="+cx8,+fxsr,+mmx,+sse,+sse2,+x87" "tune-cpu"="generic" }
attributes #6 = { noreturn nounwind "no-trapping-math"="true" "stack-protector-buffer-size"="8" "target-cpu"="x86-64" "target-features"="+cx8,+fxsr,+mmx,+sse,+sse2,+x87" "tune-cpu"="generic" }
attributes #7 = { nounwind }
attributes #8 = { noreturn nounwind }

!llvm.module.flags = !{!0, !1, !2, !3}
!llvm.ident = !{!4}

!0 = !{i32 1, !"wchar_size", i32 4}
!1 = !{i32 8, !"PIC Level", i32 2}
!2 = !{i32 7, !"PIE Level", i32 2}
!3 = !{i32 7, !"uwtable", i32 2}
!4 = !{!"Debian clang version 16.0.6 (15~deb12u1)"}
!5 = !{!6, !10, i64 8}
!6 = !{!"tree", !7, i64 0, !9, i64 4, !10, i64 8, !10, i64 16}
!7 = !{!"omnipotent char", !8, i64 0}
!8 = !{!"Simple C/C++ TBAA"}
!9 = !{!"int", !7, i64 0}
!10 = !{!"any pointer", !7, i64 0}
!11 = !{!6, !10, i64 16}
!12 = !{!13, !13, i64 0}
!13 = !{!"long", !7, i64 0}
!14 = !{!10, !10, i64 0}
!15 = !{!9, !9, i64 0}
!16 = !{!6, !7, i64 0}
!17 = !{!6, !9, i64 4}
