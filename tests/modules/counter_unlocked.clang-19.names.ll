; ModuleID = 'counter_unlocked.c'
source_filename = "counter_unlocked.c"
target datalayout = "e-m:e-p270:32:32-p271:32:32-p272:64:64-i64:64-i128:128-f80:128-n8:16:32:64-S128"
target triple = "x86_64-pc-linux-gnu"

@__const.main.steps = private unnamed_addr constant [3 x i32] [i32 1, i32 10, i32 100], align 4
@.str = private unnamed_addr constant [10 x i8] c"no thread\00", align 1
@.str.1 = private unnamed_addr constant [30 x i8] c"counter %ld after %u threads\0A\00", align 1
@counter = internal global i64 0, align 8
@finished = internal global i16 0, align 2

; Function Attrs: noinline nounwind optnone uwtable
define dso_local i32 @main() #0 {
entry:
  %retval = alloca i32, align 4
  %threads = alloca [3 x i64], align 16
  %steps = alloca [3 x i32], align 4
  %i = alloca i32, align 4
  %i5 = alloca i32, align 4
  store i32 0, ptr %retval, align 4
  call void @llvm.memcpy.p0.p0.i64(ptr align 4 %steps, ptr align 4 @__const.main.steps, i64 12, i1 false)
  store i32 0, ptr %i, align 4
  br label %for.cond

for.cond:                                         ; preds = %for.inc, %entry
  %0 = load i32, ptr %i, align 4
  %cmp = icmp slt i32 %0, 3
  br i1 %cmp, label %for.body, label %for.end

for.body:                                         ; preds = %for.cond
  %1 = load i32, ptr %i, align 4
  %idxprom = sext i32 %1 to i64
  %arrayidx = getelementptr inbounds [3 x i64], ptr %threads, i64 0, i64 %idxprom
  %2 = load i32, ptr %i, align 4
  %idxprom1 = sext i32 %2 to i64
  %arrayidx2 = getelementptr inbounds [3 x i32], ptr %steps, i64 0, i64 %idxprom1
  %call = call i32 @pthread_create(ptr noundef %arrayidx, ptr noundef null, ptr noundef @count, ptr noundef %arrayidx2) #4
  %cmp3 = icmp ne i32 %call, 0
  br i1 %cmp3, label %if.then, label %if.end

if.then:                                          ; preds = %for.body
  %call4 = call i32 @puts(ptr noundef @.str)
  store i32 1, ptr %retval, align 4
  br label %return

if.end:                                           ; preds = %for.body
  br label %for.inc

for.inc:                                          ; preds = %if.end
  %3 = load i32, ptr %i, align 4
  %inc = add nsw i32 %3, 1
  store i32 %inc, ptr %i, align 4
  br label %for.cond, !llvm.loop !6

for.end:                                          ; preds = %for.cond
  store i32 0, ptr %i5, align 4
  br label %for.cond6

for.cond6:                                        ; preds = %for.inc12, %for.end
  %4 = load i32, ptr %i5, align 4
  %cmp7 = icmp slt i32 %4, 3
  br i1 %cmp7, label %for.body8, label %for.end14

for.body8:                                        ; preds = %for.cond6
  %5 = load i32, ptr %i5, align 4
  %idxprom9 = sext i32 %5 to i64
  %arrayidx10 = getelementptr inbounds [3 x i64], ptr %threads, i64 0, i64 %idxprom9
  %6 = load i64, ptr %arrayidx10, align 8
  %call11 = call i32 @pthread_join(i64 noundef %6, ptr noundef null)
  br label %for.inc12

for.inc12:                                        ; preds = %for.body8
  %7 = load i32, ptr %i5, align 4
  %inc13 = add nsw i32 %7, 1
  store i32 %inc13, ptr %i5, align 4
  br label %for.cond6, !llvm.loop !8

for.end14:                                        ; preds = %for.cond6
  %8 = load i64, ptr @counter, align 8
  %9 = load i16, ptr @finished, align 2
  %conv = zext i16 %9 to i32
  %call15 = call i32 (ptr, ...) @printf(ptr noundef @.str.1, i64 noundef %8, i32 noundef %conv)
  %10 = load i64, ptr @counter, align 8
  %cmp16 = icmp eq i64 %10, 444
  %11 = zext i1 %cmp16 to i64
  %cond = select i1 %cmp16, i32 0, i32 2
  store i32 %cond, ptr %retval, align 4
  br label %return

return:                                           ; preds = %for.end14, %if.then
  %12 = load i32, ptr %retval, align 4
  ret i32 %12
}

; Function Attrs: nocallback nofree nounwind willreturn memory(argmem: readwrite)
declare void @llvm.memcpy.p0.p0.i64(ptr noalias nocapture writeonly, ptr noalias nocapture readonly, i64, i1 immarg) #1

; Function Attrs: nounwind
declare i32 @pthread_create(ptr noundef, ptr noundef, ptr noundef, ptr noundef) #2

; Function Attrs: noinline nounwind optnone uwtable
define internal ptr @count(ptr noundef %argument) #0 {
entry:
  %argument.addr = alloca ptr, align 8
  %step = alloca i32, align 4
  %round = alloca i32, align 4
  store ptr %argument, ptr %argument.addr, align 8
  %0 = load ptr, ptr %argument.addr, align 8
  %1 = load i32, ptr %0, align 4
  store i32 %1, ptr %step, align 4
  store i32 0, ptr %round, align 4
  br label %for.cond

for.cond:                                         ; preds = %for.inc, %entry
  %2 = load i32, ptr %round, align 4
  %cmp = icmp slt i32 %2, 4
  br i1 %cmp, label %for.body, label %for.end

for.body:                                         ; preds = %for.cond
  %3 = load i32, ptr %step, align 4
  %conv = sext i32 %3 to i64
  %4 = load i64, ptr @counter, align 8
  %add = add nsw i64 %4, %conv
  store i64 %add, ptr @counter, align 8
  br label %for.inc

for.inc:                                          ; preds = %for.body
  %5 = load i32, ptr %round, align 4
  %inc = add nsw i32 %5, 1
  store i32 %inc, ptr %round, align 4
  br label %for.cond, !llvm.loop !9

for.end:                                          ; preds = %for.cond
  %6 = load i16, ptr @finished, align 2
  %inc1 = add i16 %6, 1
  store i16 %inc1, ptr @finished, align 2
  ret ptr null
}

declare i32 @puts(ptr noundef) #3

declare i32 @pthread_join(i64 noundef, ptr noundef) #3

declare i32 @printf(ptr noundef, ...) #3

attributes #0 = { noinline nounwind optnone uwtable "frame-pointer"="all" "min-legal-vector-width"="0" "no-trapping-math"="true" "stack-protector-buffer-size"="8" "target-cpu"="x86-64" "target-features"="+cmov,+cx8,+fxsr,+mmx,+sse,+sse2,+x87" "tune-cpu"="generic" }
attributes #1 = { nocallback nofree nounwind willreturn memory(argmem: readwrite) }
attributes #2 = { nounwind "frame-pointer"="all" "no-trapping-math"="true" "stack-protector-buffer-size"="8" "target-cpu"="x86-64" "target-features"="+cmov,+cx8,+fxsr,+mmx,+sse,+sse2,+x87" "tune-cpu"="generic" }
attributes #3 = { "frame-pointer"="all" "no-trapping-math"="true" "stack-protector-buffer-size"="8" "target-cpu"="x86-64" "target-features"="+cmov,+cx8,+fxsr,+mmx,+sse,+sse2,+x87" "tune-cpu"="generic" }
attributes #4 = { nounwind }

!llvm.module.flags = !{!0, !1, !2, !3, !4}
!llvm.ident = !{!5}

!0 = !{i32 1, !"wchar_size", i32 4}
!1 = !{i32 8, !"PIC Level", i32 2}
!2 = !{i32 7, !"PIE Level", i32 2}
!3 = !{i32 7, !"uwtable", i32 2}
!4 = !{i32 7, !"frame-pointer", i32 2}
!5 = !{!"Debian clang version 19.1.7 (3~deb12u1)"}
!6 = distinct !{!6, !7}
!7 = !{!"llvm.loop.mustprogress"}
!8 = distinct !{!8, !7}
!9 = distinct !{!9, !7}
