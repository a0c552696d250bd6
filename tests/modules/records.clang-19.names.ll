; ModuleID = 'records.c'
source_filename = "records.c"
target datalayout = "e-m:e-p270:32:32-p271:32:32-p272:64:64-i64:64-i128:128-f80:128-n8:16:32:64-S128"
target triple = "x86_64-pc-linux-gnu"

%struct.shape = type { i8, [3 x %struct.point], ptr, ptr }
%struct.point = type { i16, i16 }
%struct.header = type <{ i8, i32, i64 }>
%union.word = type { i32 }

@shapes = internal global [2 x %struct.shape] [%struct.shape { i8 116, [3 x %struct.point] [%struct.point zeroinitializer, %struct.point { i16 4, i16 0 }, %struct.point { i16 0, i16 3 }], ptr @.str.3, ptr getelementptr (i8, ptr @shapes, i64 32) }, %struct.shape { i8 108, [3 x %struct.point] [%struct.point { i16 1, i16 1 }, %struct.point { i16 5, i16 -5 }, %struct.point zeroinitializer], ptr @.str.4, ptr null }], align 16
@corner = internal global ptr getelementptr (i8, ptr @shapes, i64 6), align 8
@.str = private unnamed_addr constant [11 x i8] c"%ld %s %c\0A\00", align 1
@.str.1 = private unnamed_addr constant [11 x i8] c"%u %x %lx\0A\00", align 1
@header = internal global %struct.header <{ i8 1, i32 13, i64 1234605616436508552 }>, align 1
@word = internal global %union.word zeroinitializer, align 4
@.str.2 = private unnamed_addr constant [7 x i8] c"%x %d\0A\00", align 1
@.str.3 = private unnamed_addr constant [9 x i8] c"triangle\00", align 1
@.str.4 = private unnamed_addr constant [5 x i8] c"line\00", align 1
@scales = internal constant [2 x [3 x i16]] [[3 x i16] [i16 1, i16 2, i16 3], [3 x i16] [i16 -1, i16 -2, i16 -3]], align 2

; Function Attrs: noinline nounwind optnone uwtable
define dso_local i32 @main() #0 {
entry:
  %retval = alloca i32, align 4
  %thread = alloca i64, align 8
  %sum = alloca ptr, align 8
  %copy = alloca %struct.shape, align 8
  store i32 0, ptr %retval, align 4
  call void @llvm.memcpy.p0.p0.i64(ptr align 8 %copy, ptr align 16 @shapes, i64 32, i1 false)
  %call = call i32 @pthread_create(ptr noundef %thread, ptr noundef null, ptr noundef @measure, ptr noundef %copy) #4
  %0 = load ptr, ptr @corner, align 8
  store i16 40, ptr %0, align 2
  %1 = load i64, ptr %thread, align 8
  %call1 = call i32 @pthread_join(i64 noundef %1, ptr noundef %sum)
  %2 = load ptr, ptr %sum, align 8
  %3 = ptrtoint ptr %2 to i64
  %next = getelementptr inbounds %struct.shape, ptr %copy, i32 0, i32 3
  %4 = load ptr, ptr %next, align 8
  %name = getelementptr inbounds %struct.shape, ptr %4, i32 0, i32 2
  %5 = load ptr, ptr %name, align 8
  %kind = getelementptr inbounds %struct.shape, ptr %copy, i32 0, i32 0
  %6 = load i8, ptr %kind, align 8
  %conv = sext i8 %6 to i32
  %call2 = call i32 (ptr, ...) @printf(ptr noundef @.str, i64 noundef %3, ptr noundef %5, i32 noundef %conv)
  %7 = load i32, ptr getelementptr inbounds (%struct.header, ptr @header, i32 0, i32 1), align 1
  %8 = load i32, ptr @word, align 4
  %9 = load i64, ptr getelementptr inbounds (%struct.header, ptr @header, i32 0, i32 2), align 1
  %call3 = call i32 (ptr, ...) @printf(ptr noundef @.str.1, i32 noundef %7, i32 noundef %8, i64 noundef %9)
  %10 = load i8, ptr @header, align 1
  store i8 %10, ptr getelementptr inbounds ([4 x i8], ptr @word, i64 0, i64 3), align 1
  %11 = load i32, ptr @word, align 4
  %12 = load i16, ptr getelementptr inbounds (%struct.point, ptr @word, i32 0, i32 1), align 2
  %conv4 = sext i16 %12 to i32
  %call5 = call i32 (ptr, ...) @printf(ptr noundef @.str.2, i32 noundef %11, i32 noundef %conv4)
  ret i32 0
}

; Function Attrs: nocallback nofree nounwind willreturn memory(argmem: readwrite)
declare void @llvm.memcpy.p0.p0.i64(ptr noalias nocapture writeonly, ptr noalias nocapture readonly, i64, i1 immarg) #1

; Function Attrs: nounwind
declare i32 @pthread_create(ptr noundef, ptr noundef, ptr noundef, ptr noundef) #2

; Function Attrs: noinline nounwind optnone uwtable
define internal ptr @measure(ptr noundef %argument) #0 {
entry:
  %argument.addr = alloca ptr, align 8
  %shape = alloca ptr, align 8
  %sum = alloca i64, align 8
  %i = alloca i32, align 4
  store ptr %argument, ptr %argument.addr, align 8
  %0 = load ptr, ptr %argument.addr, align 8
  store ptr %0, ptr %shape, align 8
  store i64 0, ptr %sum, align 8
  br label %for.cond

for.cond:                                         ; preds = %for.inc18, %entry
  %1 = load ptr, ptr %shape, align 8
  %cmp = icmp ne ptr %1, null
  br i1 %cmp, label %for.body, label %for.end19

for.body:                                         ; preds = %for.cond
  store i32 0, ptr %i, align 4
  br label %for.cond1

for.cond1:                                        ; preds = %for.inc, %for.body
  %2 = load i32, ptr %i, align 4
  %cmp2 = icmp slt i32 %2, 3
  br i1 %cmp2, label %for.body3, label %for.end

for.body3:                                        ; preds = %for.cond1
  %3 = load ptr, ptr %shape, align 8
  %corners = getelementptr inbounds %struct.shape, ptr %3, i32 0, i32 1
  %4 = load i32, ptr %i, align 4
  %idxprom = sext i32 %4 to i64
  %arrayidx = getelementptr inbounds [3 x %struct.point], ptr %corners, i64 0, i64 %idxprom
  %x = getelementptr inbounds %struct.point, ptr %arrayidx, i32 0, i32 0
  %5 = load i16, ptr %x, align 2
  %conv = sext i16 %5 to i32
  %6 = load i32, ptr %i, align 4
  %idxprom4 = sext i32 %6 to i64
  %arrayidx5 = getelementptr inbounds [3 x i16], ptr @scales, i64 0, i64 %idxprom4
  %7 = load i16, ptr %arrayidx5, align 2
  %conv6 = sext i16 %7 to i32
  %mul = mul nsw i32 %conv, %conv6
  %8 = load ptr, ptr %shape, align 8
  %corners7 = getelementptr inbounds %struct.shape, ptr %8, i32 0, i32 1
  %9 = load i32, ptr %i, align 4
  %idxprom8 = sext i32 %9 to i64
  %arrayidx9 = getelementptr inbounds [3 x %struct.point], ptr %corners7, i64 0, i64 %idxprom8
  %y = getelementptr inbounds %struct.point, ptr %arrayidx9, i32 0, i32 1
  %10 = load i16, ptr %y, align 2
  %conv10 = sext i16 %10 to i32
  %11 = load i32, ptr %i, align 4
  %idxprom11 = sext i32 %11 to i64
  %arrayidx12 = getelementptr inbounds [3 x i16], ptr getelementptr inbounds ([2 x [3 x i16]], ptr @scales, i64 0, i64 1), i64 0, i64 %idxprom11
  %12 = load i16, ptr %arrayidx12, align 2
  %conv13 = sext i16 %12 to i32
  %mul14 = mul nsw i32 %conv10, %conv13
  %sub = sub nsw i32 %mul, %mul14
  %conv15 = sext i32 %sub to i64
  %13 = load i64, ptr %sum, align 8
  %add = add nsw i64 %13, %conv15
  store i64 %add, ptr %sum, align 8
  br label %for.inc

for.inc:                                          ; preds = %for.body3
  %14 = load i32, ptr %i, align 4
  %inc = add nsw i32 %14, 1
  store i32 %inc, ptr %i, align 4
  br label %for.cond1, !llvm.loop !6

for.end:                                          ; preds = %for.cond1
  %15 = load ptr, ptr %shape, align 8
  %corners16 = getelementptr inbounds %struct.shape, ptr %15, i32 0, i32 1
  %arrayidx17 = getelementptr inbounds [3 x %struct.point], ptr %corners16, i64 0, i64 1
  call void @llvm.memcpy.p0.p0.i64(ptr align 4 @word, ptr align 2 %arrayidx17, i64 4, i1 false)
  br label %for.inc18

for.inc18:                                        ; preds = %for.end
  %16 = load ptr, ptr %shape, align 8
  %next = getelementptr inbounds %struct.shape, ptr %16, i32 0, i32 3
  %17 = load ptr, ptr %next, align 8
  store ptr %17, ptr %shape, align 8
  br label %for.cond, !llvm.loop !8

for.end19:                                        ; preds = %for.cond
  %18 = load i64, ptr getelementptr inbounds (%struct.header, ptr @header, i32 0, i32 2), align 1
  %add20 = add i64 %18, 1
  store i64 %add20, ptr getelementptr inbounds (%struct.header, ptr @header, i32 0, i32 2), align 1
  %19 = load i64, ptr %sum, align 8
  %20 = inttoptr i64 %19 to ptr
  ret ptr %20
}

declare i32 @pthread_join(i64 noundef, ptr noundef) #3

declare i32 @printf(ptr noundef, ...) #3

attributes #0 = { noinline nounwind optnone uwtable "frame-pointer"="all" "min-legal-vector-width"="0" "no-trapping-math"="true" "stack-protector-buffer-size"="8" "target-cpu"="x86-64" "target-features"="+cmov,+cx8,+fxsr,+mmx,+sse,+sse2,+x87" "tune-cpu"="generic" }
attributes #1 = { nocallback nofree nounwind willreturn memory(argmem: readwrite) }
attributes #2 = { nounwind "frame-pointer"="all" "no-trapping-math"="true" "stack-protector-buffer-size"="8" "target-cpu"="x86-64" "target-features"="+cmov,+cx8,+fxsr,+mmx,+sse,+sse2,+x87" "tune-cpu"="generic" }
attributes #3 = { "frame-pointer"="all" "no-trapping-math"="true" "stack-protector-buffer-size"="8" "target-cpu"="x86-64" "target-features"="+cmov,+cx8,+fxsr,+mmx,+sse,+sse2,+x87" "tune-cpu"="generic" }
attributes #4 = { nounwind }

!llvm.module.flags = !{!0, !1, !2, !3, !4}
!llvm.ident = !{!5}

!0 = !{i32 1, !"wchar_size", i32 4}
!1 = !{i32 8, !"PIC Level", i32 2}
!2 = !{i32 7, !"PIE Level", i32 2}
!3 = !{i32 7, !"uwtable", i32 2}
!4 = !{i32 7, !"frame-pointer", i32 2}
!5 = !{!"Debian clang version 19.1.7 (3~deb12u1)"}
!6 = distinct !{!6, !7}
!7 = !{!"llvm.loop.mustprogress"}
!8 = distinct !{!8, !7}
