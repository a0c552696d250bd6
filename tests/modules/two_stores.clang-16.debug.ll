; ModuleID = 'two_stores.c'
source_filename = "two_stores.c"
target datalayout = "e-m:e-p270:32:32-p271:32:32-p272:64:64-i64:64-f80:128-n8:16:32:64-S128"
target triple = "x86_64-pc-linux-gnu"

@first = internal global i64 0, align 8, !dbg !0
@second = internal global i64 0, align 8, !dbg !7
@letter = internal global i32 64, align 4, !dbg !12

; Function Attrs: noinline nounwind optnone uwtable
define dso_local i32 @main() #0 !dbg !23 {
  %1 = alloca i32, align 4
  store i32 0, ptr %1, align 4
  %2 = call i32 @pthread_create(ptr noundef @first, ptr noundef null, ptr noundef @store_a, ptr noundef null) #4, !dbg !27
  %3 = call i32 @pthread_create(ptr noundef @second, ptr noundef null, ptr noundef @store_b, ptr noundef null) #4, !dbg !28
  %4 = load i64, ptr @first, align 8, !dbg !29
  %5 = call i32 @pthread_join(i64 noundef %4, ptr noundef null), !dbg !30
  %6 = load i64, ptr @second, align 8, !dbg !31
  %7 = call i32 @pthread_join(i64 noundef %6, ptr noundef null), !dbg !32
  %8 = load i32, ptr @letter, align 4, !dbg !33
  %9 = call i32 @putchar(i32 noundef %8), !dbg !34
  ret i32 0, !dbg !35
}

; Function Attrs: nounwind
declare i32 @pthread_create(ptr noundef, ptr noundef, ptr noundef, ptr noundef) #1

; Function Attrs: noinline nounwind optnone uwtable
define internal ptr @store_a(ptr noundef %0) #0 !dbg !36 {
  %2 = alloca ptr, align 8
  store ptr %0, ptr %2, align 8
  call void @llvm.dbg.declare(metadata ptr %2, metadata !39, metadata !DIExpression()), !dbg !40
  store i32 65, ptr @letter, align 4, !dbg !41
  ret ptr null, !dbg !42
}

; Function Attrs: noinline nounwind optnone uwtable
define internal ptr @store_b(ptr noundef %0) #0 !dbg !43 {
  %2 = alloca ptr, align 8
  store ptr %0, ptr %2, align 8
  call void @llvm.dbg.declare(metadata ptr %2, metadata !44, metadata !DIExpression()), !dbg !45
  %3 = load i32, ptr @letter, align 4, !dbg !46
  %4 = add nsw i32 %3, 1, !dbg !47
  store i32 %4, ptr @letter, align 4, !dbg !48
  ret ptr null, !dbg !49
}

declare i32 @pthread_join(i64 noundef, ptr noundef) #2

declare i32 @putchar(i32 noundef) #2

; Function Attrs: nocallback nofree nosync nounwind speculatable willreturn memory(none)
declare void @llvm.dbg.declare(metadata, metadata, metadata) #3

attributes #0 = { noinline nounwind optnone uwtable "frame-pointer"="all" "min-legal-vector-width"="0" "no-trapping-math"="true" "stack-protector-buffer-size"="8" "target-cpu"="x86-64" "target-features"="+cx8,+fxsr,+mmx,+sse,+sse2,+x87" "tune-cpu"="generic" }
attributes #1 = { nounwind "frame-pointer"="all" "no-trapping-math"="true" "stack-protector-buffer-size"="8" "target-cpu"="x86-64" "target-features"="+cx8,+fxsr,+mmx,+sse,+sse2,+x87" "tune-cpu"="generic" }
attributes #2 = { "frame-pointer"="all" "no-trapping-math"="true" "stack-protector-buffer-size"="8" "target-cpu"="x86-64" "target-features"="+cx8,+fxsr,+mmx,+sse,+sse2,+x87" "tune-cpu"="generic" }
attributes #3 = { nocallback nofree nosync nounwind speculatable willreturn memory(none) }
attributes #4 = { nounwind }

!llvm.dbg.cu = !{!2}
!llvm.module.flags = !{!15, !16, !17, !18, !19, !20, !21}
!llvm.ident = !{!22}

!0 = !DIGlobalVariableExpression(var: !1, expr: !DIExpression())
!1 = distinct !DIGlobalVariable(name: "first", scope: !2, file: !3, line: 6, type: !9, isLocal: true, isDefinition: true)
!2 = distinct !DICompileUnit(language: DW_LANG_C11, file: !3, producer: "Debian clang version 16.0.6 (15~deb12u1)", isOptimized: false, runtimeVersion: 0, emissionKind: FullDebug, retainedTypes: !4, globals: !6, splitDebugInlining: false, nameTableKind: None)
!3 = !DIFile(filename: "two_stores.c", directory: ".", checksumkind: CSK_MD5, checksum: "ddb884fcd1ccaabfea2b3b8de707cb40")
!4 = !{!5}
!5 = !DIDerivedType(tag: DW_TAG_pointer_type, baseType: null, size: 64)
!6 = !{!0, !7, !12}
!7 = !DIGlobalVariableExpression(var: !8, expr: !DIExpression())
!8 = distinct !DIGlobalVariable(name: "second", scope: !2, file: !3, line: 6, type: !9, isLocal: true, isDefinition: true)
!9 = !DIDerivedType(tag: DW_TAG_typedef, name: "pthread_t", file: !10, line: 27, baseType: !11)
!10 = !DIFile(filename: "include/x86_64-linux-gnu/bits/pthreadtypes.h", directory: "", checksumkind: CSK_MD5, checksum: "735e3bf264ff9d8f5d95898b1692fbdb")
!11 = !DIBasicType(name: "unsigned long", size: 64, encoding: DW_ATE_unsigned)
!12 = !DIGlobalVariableExpression(var: !13, expr: !DIExpression())
!13 = distinct !DIGlobalVariable(name: "letter", scope: !2, file: !3, line: 5, type: !14, isLocal: true, isDefinition: true)
!14 = !DIBasicType(name: "int", size: 32, encoding: DW_ATE_signed)
!15 = !{i32 7, !"Dwarf Version", i32 5}
!16 = !{i32 2, !"Debug Info Version", i32 3}
!17 = !{i32 1, !"wchar_size", i32 4}
!18 = !{i32 8, !"PIC Level", i32 2}
!19 = !{i32 7, !"PIE Level", i32 2}
!20 = !{i32 7, !"uwtable", i32 2}
!21 = !{i32 7, !"frame-pointer", i32 2}
!22 = !{!"Debian clang version 16.0.6 (15~deb12u1)"}
!23 = distinct !DISubprogram(name: "main", scope: !3, file: !3, line: 20, type: !24, scopeLine: 21, flags: DIFlagPrototyped, spFlags: DISPFlagDefinition, unit: !2, retainedNodes: !26)
!24 = !DISubroutineType(types: !25)
!25 = !{!14}
!26 = !{}
!27 = !DILocation(line: 22, column: 5, scope: !23)
!28 = !DILocation(line: 23, column: 5, scope: !23)
!29 = !DILocation(line: 24, column: 18, scope: !23)
!30 = !DILocation(line: 24, column: 5, scope: !23)
!31 = !DILocation(line: 25, column: 18, scope: !23)
!32 = !DILocation(line: 25, column: 5, scope: !23)
!33 = !DILocation(line: 26, column: 13, scope: !23)
!34 = !DILocation(line: 26, column: 5, scope: !23)
!35 = !DILocation(line: 27, column: 5, scope: !23)
!36 = distinct !DISubprogram(name: "store_a", scope: !3, file: !3, line: 8, type: !37, scopeLine: 9, flags: DIFlagPrototyped, spFlags: DISPFlagLocalToUnit | DISPFlagDefinition, unit: !2, retainedNodes: !26)
!37 = !DISubroutineType(types: !38)
!38 = !{!5, !5}
!39 = !DILocalVariable(name: "unused", arg: 1, scope: !36, file: !3, line: 8, type: !5)
!40 = !DILocation(line: 8, column: 28, scope: !36)
!41 = !DILocation(line: 10, column: 12, scope: !36)
!42 = !DILocation(line: 11, column: 5, scope: !36)
!43 = distinct !DISubprogram(name: "store_b", scope: !3, file: !3, line: 14, type: !37, scopeLine: 15, flags: DIFlagPrototyped, spFlags: DISPFlagLocalToUnit | DISPFlagDefinition, unit: !2, retainedNodes: !26)
!44 = !DILocalVariable(name: "unused", arg: 1, scope: !43, file: !3, line: 14, type: !5)
!45 = !DILocation(line: 14, column: 28, scope: !43)
!46 = !DILocation(line: 16, column: 14, scope: !43)
!47 = !DILocation(line: 16, column: 21, scope: !43)
!48 = !DILocation(line: 16, column: 12, scope: !43)
!49 = !DILocation(line: 17, column: 5, scope: !43)
