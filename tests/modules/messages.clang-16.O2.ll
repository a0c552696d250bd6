; ModuleID = 'messages.c'
source_filename = "messages.c"
target datalayout = "e-m:e-p270:32:32-p271:32:32-p272:64:64-i64:64-f80:128-n8:16:32:64-S128"
target triple = "x86_64-pc-linux-gnu"

%union.pthread_mutex_t = type { %struct.__pthread_mutex_s }
%struct.__pthread_mutex_s = type { i32, i32, i32, i32, i32, i16, i16, %struct.__pthread_internal_list }
%struct.__pthread_internal_list = type { ptr, ptr }

@page = internal global [48 x i8] zeroinitializer, align 16
@greetings = internal constant [3 x ptr] [ptr @.str.1, ptr @.str.2, ptr @.str.3], align 16
@.str = private unnamed_addr constant [34 x i8] c"%s: %zu bytes, %d missing, 100%%\0A\00", align 1
@used = internal unnamed_addr global i64 0, align 8
@page_lock = internal global %union.pthread_mutex_t zeroinitializer, align 8
@.str.1 = private unnamed_addr constant [13 x i8] c"good morning\00", align 1
@.str.2 = private unnamed_addr constant [11 x i8] c"good night\00", align 1
@.str.3 = private unnamed_addr constant [18 x i8] c"a \22quoted\22 \\ word\00", align 1

; Function Attrs: nounwind uwtable
define dso_local i32 @main() local_unnamed_addr #0 {
  %1 = alloca [3 x i64], align 16
  %2 = alloca [8 x i8], align 8
  %3 = alloca ptr, align 8
  call void @llvm.lifetime.start.p0(i64 24, ptr nonnull %1) #8
  call void @llvm.lifetime.start.p0(i64 8, ptr nonnull %2) #8
  store i64 1701273968, ptr %2, align 8
  tail call void @llvm.memset.p0.i64(ptr noundef nonnull align 16 dereferenceable(47) @page, i8 46, i64 47, i1 false)
  %4 = call i32 @pthread_create(ptr noundef nonnull %1, ptr noundef null, ptr noundef nonnull @greet, ptr noundef nonnull @greetings) #8
  %5 = getelementptr inbounds [3 x i64], ptr %1, i64 0, i64 1
  %6 = call i32 @pthread_create(ptr noundef nonnull %5, ptr noundef null, ptr noundef nonnull @greet, ptr noundef nonnull getelementptr inbounds ([3 x ptr], ptr @greetings, i64 0, i64 1)) #8
  %7 = getelementptr inbounds [3 x i64], ptr %1, i64 0, i64 2
  %8 = call i32 @pthread_create(ptr noundef nonnull %7, ptr noundef null, ptr noundef nonnull @greet, ptr noundef nonnull getelementptr inbounds ([3 x ptr], ptr @greetings, i64 0, i64 2)) #8
  call void @llvm.lifetime.start.p0(i64 8, ptr nonnull %3) #8
  %9 = load i64, ptr %1, align 16, !tbaa !5
  %10 = call i32 @pthread_join(i64 noundef %9, ptr noundef nonnull %3) #8
  %11 = load ptr, ptr %3, align 8, !tbaa !9
  %12 = icmp ne ptr %11, null
  %13 = zext i1 %12 to i32
  call void @llvm.lifetime.end.p0(i64 8, ptr nonnull %3) #8
  call void @llvm.lifetime.start.p0(i64 8, ptr nonnull %3) #8
  %14 = load i64, ptr %5, align 8, !tbaa !5
  %15 = call i32 @pthread_join(i64 noundef %14, ptr noundef nonnull %3) #8
  %16 = load ptr, ptr %3, align 8, !tbaa !9
  %17 = icmp ne ptr %16, null
  %18 = zext i1 %17 to i32
  %19 = add nuw nsw i32 %13, %18
  call void @llvm.lifetime.end.p0(i64 8, ptr nonnull %3) #8
  call void @llvm.lifetime.start.p0(i64 8, ptr nonnull %3) #8
  %20 = load i64, ptr %7, align 16, !tbaa !5
  %21 = call i32 @pthread_join(i64 noundef %20, ptr noundef nonnull %3) #8
  %22 = load ptr, ptr %3, align 8, !tbaa !9
  %23 = icmp ne ptr %22, null
  %24 = zext i1 %23 to i32
  %25 = add nuw nsw i32 %19, %24
  call void @llvm.lifetime.end.p0(i64 8, ptr nonnull %3) #8
  %26 = getelementptr inbounds i8, ptr %2, i64 2
  call void @llvm.memmove.p0.p0.i64(ptr noundef nonnull align 2 dereferenceable(5) %26, ptr noundef nonnull align 8 dereferenceable(5) %2, i64 5, i1 false)
  %27 = load i64, ptr @used, align 8, !tbaa !5
  %28 = call i32 (ptr, ...) @printf(ptr noundef nonnull dereferenceable(1) @.str, ptr noundef nonnull %2, i64 noundef %27, i32 noundef %25)
  %29 = call i32 @puts(ptr noundef nonnull dereferenceable(1) @page)
  call void @llvm.lifetime.end.p0(i64 8, ptr nonnull %2) #8
  call void @llvm.lifetime.end.p0(i64 24, ptr nonnull %1) #8
  ret i32 0
}

; Function Attrs: mustprogress nocallback nofree nosync nounwind willreturn memory(argmem: readwrite)
declare void @llvm.lifetime.start.p0(i64 immarg, ptr nocapture) #1

; Function Attrs: mustprogress nocallback nofree nounwind willreturn memory(argmem: readwrite)
declare void @llvm.memcpy.p0.p0.i64(ptr noalias nocapture writeonly, ptr noalias nocapture readonly, i64, i1 immarg) #2

; Function Attrs: mustprogress nocallback nofree nounwind willreturn memory(argmem: write)
declare void @llvm.memset.p0.i64(ptr nocapture writeonly, i8, i64, i1 immarg) #3

; Function Attrs: nounwind
declare i32 @pthread_create(ptr noundef, ptr noundef, ptr noundef, ptr noundef) local_unnamed_addr #4

; Function Attrs: nounwind uwtable
define internal ptr @greet(ptr noundef readonly %0) #0 {
  %2 = load ptr, ptr %0, align 8, !tbaa !9
  %3 = tail call i64 @strlen(ptr noundef nonnull dereferenceable(1) %2) #9
  %4 = tail call i32 @pthread_mutex_lock(ptr noundef nonnull @page_lock) #8
  %5 = load i64, ptr @used, align 8, !tbaa !5
  %6 = add i64 %5, %3
  %7 = add i64 %6, 1
  %8 = icmp ugt i64 %7, 47
  br i1 %8, label %12, label %9

9:                                                ; preds = %1
  %10 = getelementptr inbounds i8, ptr @page, i64 %5
  tail call void @llvm.memcpy.p0.p0.i64(ptr nonnull align 1 %10, ptr align 1 %2, i64 %3, i1 false)
  store i64 %7, ptr @used, align 8, !tbaa !5
  %11 = getelementptr inbounds [48 x i8], ptr @page, i64 0, i64 %6
  store i8 59, ptr %11, align 1, !tbaa !11
  br label %12

12:                                               ; preds = %1, %9
  %13 = phi ptr [ %0, %1 ], [ null, %9 ]
  %14 = tail call i32 @pthread_mutex_unlock(ptr noundef nonnull @page_lock) #8
  ret ptr %13
}

; Function Attrs: mustprogress nocallback nofree nosync nounwind willreturn memory(argmem: readwrite)
declare void @llvm.lifetime.end.p0(i64 immarg, ptr nocapture) #1

declare i32 @pthread_join(i64 noundef, ptr noundef) local_unnamed_addr #5

; Function Attrs: mustprogress nocallback nofree nounwind willreturn memory(argmem: readwrite)
declare void @llvm.memmove.p0.p0.i64(ptr nocapture writeonly, ptr nocapture readonly, i64, i1 immarg) #2

; Function Attrs: nofree nounwind
declare noundef i32 @printf(ptr nocapture noundef readonly, ...) local_unnamed_addr #6

; Function Attrs: nofree nounwind
declare noundef i32 @puts(ptr nocapture noundef readonly) local_unnamed_addr #6

; Function Attrs: mustprogress nofree nounwind willreturn memory(argmem: read)
declare i64 @strlen(ptr nocapture noundef) local_unnamed_addr #7

; Function Attrs: nounwind
declare i32 @pthread_mutex_lock(ptr noundef) local_unnamed_addr #4

; Function Attrs: nounwind
declare i32 @pthread_mutex_unlock(ptr noundef) local_unnamed_addr #4

attributes #0 = { nounwind uwtable "min-legal-vector-width"="0" "no-trapping-math"="true" "stack-protector-buffer-size"="8" "target-cpu"="x86-64" "target-features"="+cx8,+fxsr,+mmx,+sse,+sse2,+x87" "tune-cpu"="generic" }
attributes #1 = { mustprogress nocallback nofree nosync nounwind willreturn memory(argmem: readwrite) }
attributes #2 = { mustprogress nocallback nofree nounwind willreturn memory(argmem: readwrite) }
attributes #3 = { mustprogress nocallback nofree nounwind willreturn memory(argmem: write) }
attributes #4 = { nounwind "no-trapping-math"="true" "stack-protector-buffer-size"="8" "target-cpu"="x86-64" "target-features"="+cx8,+fxsr,+mmx,+sse,+sse2,+x87" "tune-cpu"="generic" }
attributes #5 = { "no-trapping-math"="true" "stack-protector-buffer-size"="8" "target-cpu"="x86-64" "target-features"="+cx8,+fxsr,+mmx,+sse,+sse2,+x87" "tune-cpu"="generic" }
attributes #6 = { nofree nounwind "no-trapping-math"="true" "stack-protector-buffer-size"="8" "target-cpu"="x86-64" "target-features"="+cx8,+fxsr,+mmx,+sse,+sse2,+x87" "tune-cpu"="generic" }
attributes #7 = { mustprogress nofree nounwind willreturn memory(argmem: read) "no-trapping-math"="true" "stack-protector-buffer-size"="8" "target-cpu"="x86-64" "target-features"="+cx8,+fxsr,+mmx,+sse,+sse2,+x87" "tune-cpu"="generic" }
attributes #8 = { nounwind }
attributes #9 = { nounwind willreturn memory(read) }

!llvm.module.flags = !{!0, !1, !2, !3}
!llvm.ident = !{!4}

!0 = !{i32 1, !"wchar_size", i32 4}
!1 = !{i32 8, !"PIC Level", i32 2}
!2 = !{i32 7, !"PIE Level", i32 2}
!3 = !{i32 7, !"uwtable", i32 2}
!4 = !{!"Debian clang version 16.0.6 (15~deb12u1)"}
!5 = !{!6, !6, i64 0}
!6 = !{!"long", !7, i64 0}
!7 = !{!"omnipotent char", !8, i64 0}
!8 = !{!"Simple C/C++ TBAA"}
!9 = !{!10, !10, i64 0}
!10 = !{!"any pointer", !7, i64 0}
!11 = !{!7, !7, i64 0}
