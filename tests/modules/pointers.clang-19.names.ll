; ModuleID = 'pointers.c'
source_filename = "pointers.c"
target datalayout = "e-m:e-p270:32:32-p271:32:32-p272:64:64-i64:64-i128:128-f80:128-n8:16:32:64-S128"
target triple = "x86_64-pc-linux-gnu"

@cells = internal global [8 x i32] [i32 3, i32 1, i32 4, i32 1, i32 5, i32 9, i32 2, i32 6], align 16
@tagged = internal global i64 0, align 8
@.str = private unnamed_addr constant [11 x i8] c"%ld %d %d\0A\00", align 1
@best = internal global ptr @cells, align 8
@.str.1 = private unnamed_addr constant [7 x i8] c"%d %d\0A\00", align 1

; Function Attrs: noinline nounwind optnone uwtable
define dso_local i32 @main() #0 {
entry:
  %retval = alloca i32, align 4
  %thread = alloca i64, align 8
  %found = alloca ptr, align 8
  %start = alloca ptr, align 8
  %middle = alloca ptr, align 8
  %device = alloca ptr, align 8
  %place = alloca i64, align 8
  %is_tagged = alloca i32, align 4
  store i32 0, ptr %retval, align 4
  store ptr @cells, ptr %start, align 8
  %0 = load ptr, ptr %start, align 8
  %add.ptr = getelementptr inbounds i32, ptr %0, i64 4
  store ptr %add.ptr, ptr %middle, align 8
  store ptr inttoptr (i64 2147418112 to ptr), ptr %device, align 8
  %call = call i32 @pthread_create(ptr noundef %thread, ptr noundef null, ptr noundef @find_greatest, ptr noundef null) #3
  %1 = load ptr, ptr %middle, align 8
  store i32 0, ptr %1, align 4
  %2 = load i64, ptr %thread, align 8
  %call1 = call i32 @pthread_join(i64 noundef %2, ptr noundef %found)
  %3 = load ptr, ptr %found, align 8
  %4 = load ptr, ptr %start, align 8
  %sub.ptr.lhs.cast = ptrtoint ptr %3 to i64
  %sub.ptr.rhs.cast = ptrtoint ptr %4 to i64
  %sub.ptr.sub = sub i64 %sub.ptr.lhs.cast, %sub.ptr.rhs.cast
  %sub.ptr.div = sdiv exact i64 %sub.ptr.sub, 4
  store i64 %sub.ptr.div, ptr %place, align 8
  %5 = load i64, ptr @tagged, align 8
  %and = and i64 %5, 1
  %tobool = icmp ne i64 %and, 0
  %6 = zext i1 %tobool to i64
  %cond = select i1 %tobool, i32 1, i32 0
  store i32 %cond, ptr %is_tagged, align 4
  %7 = load i64, ptr %place, align 8
  %8 = load i32, ptr %is_tagged, align 4
  %9 = load i64, ptr @tagged, align 8
  %call2 = call ptr @untagged(i64 noundef %9)
  %10 = load ptr, ptr @best, align 8
  %cmp = icmp eq ptr %call2, %10
  %conv = zext i1 %cmp to i32
  %call3 = call i32 (ptr, ...) @printf(ptr noundef @.str, i64 noundef %7, i32 noundef %8, i32 noundef %conv)
  %11 = load ptr, ptr %middle, align 8
  %12 = load ptr, ptr @best, align 8
  %cmp4 = icmp ugt ptr %11, %12
  br i1 %cmp4, label %land.rhs, label %land.end

land.rhs:                                         ; preds = %entry
  %13 = load ptr, ptr %middle, align 8
  %cmp6 = icmp ne ptr %13, getelementptr (i8, ptr @cells, i64 32)
  br label %land.end

land.end:                                         ; preds = %land.rhs, %entry
  %14 = phi i1 [ false, %entry ], [ %cmp6, %land.rhs ]
  %land.ext = zext i1 %14 to i32
  %15 = load ptr, ptr %device, align 8
  %cmp8 = icmp eq ptr %15, null
  br i1 %cmp8, label %lor.end, label %lor.rhs

lor.rhs:                                          ; preds = %land.end
  %16 = load ptr, ptr @best, align 8
  %17 = load ptr, ptr %found, align 8
  %cmp10 = icmp eq ptr %16, %17
  br label %lor.end

lor.end:                                          ; preds = %lor.rhs, %land.end
  %18 = phi i1 [ true, %land.end ], [ %cmp10, %lor.rhs ]
  %lor.ext = zext i1 %18 to i32
  %call12 = call i32 (ptr, ...) @printf(ptr noundef @.str.1, i32 noundef %land.ext, i32 noundef %lor.ext)
  %19 = load ptr, ptr @best, align 8
  %20 = load i32, ptr %19, align 4
  %cmp13 = icmp eq i32 %20, 9
  %21 = zext i1 %cmp13 to i64
  %cond15 = select i1 %cmp13, i32 0, i32 1
  ret i32 %cond15
}

; Function Attrs: nounwind
declare i32 @pthread_create(ptr noundef, ptr noundef, ptr noundef, ptr noundef) #1

; Function Attrs: noinline nounwind optnone uwtable
define internal ptr @find_greatest(ptr noundef %unused) #0 {
entry:
  %unused.addr = alloca ptr, align 8
  %cell = alloca ptr, align 8
  store ptr %unused, ptr %unused.addr, align 8
  store ptr @cells, ptr %cell, align 8
  br label %for.cond

for.cond:                                         ; preds = %for.inc, %entry
  %0 = load ptr, ptr %cell, align 8
  %cmp = icmp ult ptr %0, getelementptr (i8, ptr @cells, i64 32)
  br i1 %cmp, label %for.body, label %for.end

for.body:                                         ; preds = %for.cond
  %1 = load ptr, ptr %cell, align 8
  %2 = load i32, ptr %1, align 4
  %3 = load ptr, ptr @best, align 8
  %4 = load i32, ptr %3, align 4
  %cmp1 = icmp sgt i32 %2, %4
  br i1 %cmp1, label %cond.true, label %cond.false

cond.true:                                        ; preds = %for.body
  %5 = load ptr, ptr %cell, align 8
  br label %cond.end

cond.false:                                       ; preds = %for.body
  %6 = load ptr, ptr @best, align 8
  br label %cond.end

cond.end:                                         ; preds = %cond.false, %cond.true
  %cond = phi ptr [ %5, %cond.true ], [ %6, %cond.false ]
  store ptr %cond, ptr @best, align 8
  br label %for.inc

for.inc:                                          ; preds = %cond.end
  %7 = load ptr, ptr %cell, align 8
  %incdec.ptr = getelementptr inbounds i32, ptr %7, i32 1
  store ptr %incdec.ptr, ptr %cell, align 8
  br label %for.cond, !llvm.loop !6

for.end:                                          ; preds = %for.cond
  %8 = load ptr, ptr @best, align 8
  %9 = ptrtoint ptr %8 to i64
  %or = or i64 %9, 1
  store i64 %or, ptr @tagged, align 8
  %10 = load ptr, ptr @best, align 8
  ret ptr %10
}

declare i32 @pthread_join(i64 noundef, ptr noundef) #2

declare i32 @printf(ptr noundef, ...) #2

; Function Attrs: noinline nounwind optnone uwtable
define internal ptr @untagged(i64 noundef %pointer) #0 {
entry:
  %pointer.addr = alloca i64, align 8
  store i64 %pointer, ptr %pointer.addr, align 8
  %0 = load i64, ptr %pointer.addr, align 8
  %and = and i64 %0, -2
  %1 = inttoptr i64 %and to ptr
  ret ptr %1
}

attributes #0 = { noinline nounwind optnone uwtable "frame-pointer"="all" "min-legal-vector-width"="0" "no-trapping-math"="true" "stack-protector-buffer-size"="8" "target-cpu"="x86-64" "target-features"="+cmov,+cx8,+fxsr,+mmx,+sse,+sse2,+x87" "tune-cpu"="generic" }
attributes #1 = { nounwind "frame-pointer"="all" "no-trapping-math"="true" "stack-protector-buffer-size"="8" "target-cpu"="x86-64" "target-features"="+cmov,+cx8,+fxsr,+mmx,+sse,+sse2,+x87" "tune-cpu"="generic" }
attributes #2 = { "frame-pointer"="all" "no-trapping-math"="true" "stack-protector-buffer-size"="8" "target-cpu"="x86-64" "target-features"="+cmov,+cx8,+fxsr,+mmx,+sse,+sse2,+x87" "tune-cpu"="generic" }
attributes #3 = { nounwind }

!llvm.module.flags = !{!0, !1, !2, !3, !4}
!llvm.ident = !{!5}

!0 = !{i32 1, !"wchar_size", i32 4}
!1 = !{i32 8, !"PIC Level", i32 2}
!2 = !{i32 7, !"PIE Level", i32 2}
!3 = !{i32 7, !"uwtable", i32 2}
!4 = !{i32 7, !"frame-pointer", i32 2}
!5 = !{!"Debian clang version 19.1.7 (3~deb12u1)"}
!6 = distinct !{!6, !7}
!7 = !{!"llvm.loop.mustprogress"}
