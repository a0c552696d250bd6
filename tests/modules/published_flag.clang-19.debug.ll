; ModuleID = 'published_flag.c'
source_filename = "published_flag.c"
target datalayout = "e-m:e-p270:32:32-p271:32:32-p272:64:64-i64:64-i128:128-f80:128-n8:16:32:64-S128"
target triple = "x86_64-pc-linux-gnu"

%struct.settings = type { i32, i32 }

@.str = private unnamed_addr constant [4 x i8] c"%d\0A\00", align 1, !dbg !0
@ready = internal global i32 0, align 4, !dbg !7
@current = internal global ptr null, align 8, !dbg !15
@chosen = internal global %struct.settings zeroinitializer, align 4, !dbg !22

; Function Attrs: noinline nounwind optnone uwtable
define dso_local i32 @main() #0 !dbg !33 {
  %1 = alloca i32, align 4
  %2 = alloca i64, align 8
  %3 = alloca i64, align 8
  %4 = alloca i32, align 4
  store i32 0, ptr %1, align 4
    #dbg_declare(ptr %2, !37, !DIExpression(), !41)
    #dbg_declare(ptr %3, !42, !DIExpression(), !43)
    #dbg_declare(ptr %4, !44, !DIExpression(), !45)
  store i32 0, ptr %4, align 4, !dbg !45
  %5 = call i32 @pthread_create(ptr noundef %3, ptr noundef null, ptr noundef @use, ptr noundef %4) #3, !dbg !46
  %6 = call i32 @pthread_create(ptr noundef %2, ptr noundef null, ptr noundef @publish, ptr noundef null) #3, !dbg !47
  %7 = load i64, ptr %2, align 8, !dbg !48
  %8 = call i32 @pthread_join(i64 noundef %7, ptr noundef null), !dbg !49
  %9 = load i64, ptr %3, align 8, !dbg !50
  %10 = call i32 @pthread_join(i64 noundef %9, ptr noundef null), !dbg !51
  %11 = load i32, ptr %4, align 4, !dbg !52
  %12 = call i32 (ptr, ...) @printf(ptr noundef @.str, i32 noundef %11), !dbg !53
  ret i32 0, !dbg !54
}

; Function Attrs: nounwind
declare i32 @pthread_create(ptr noundef, ptr noundef, ptr noundef, ptr noundef) #1

; Function Attrs: noinline nounwind optnone uwtable
define internal ptr @use(ptr noundef %0) #0 !dbg !55 {
  %2 = alloca ptr, align 8
  %3 = alloca i32, align 4
  store ptr %0, ptr %2, align 8
    #dbg_declare(ptr %2, !58, !DIExpression(), !59)
    #dbg_declare(ptr %3, !60, !DIExpression(), !61)
  store i32 0, ptr %3, align 4, !dbg !61
  br label %4, !dbg !62

4:                                                ; preds = %17, %1
  %5 = load volatile i32, ptr @ready, align 4, !dbg !63
  %6 = icmp ne i32 %5, 0, !dbg !64
  %7 = xor i1 %6, true, !dbg !64
  br i1 %7, label %8, label %18, !dbg !62

8:                                                ; preds = %4
  %9 = load i32, ptr %3, align 4, !dbg !65
  %10 = add nsw i32 %9, 1, !dbg !65
  store i32 %10, ptr %3, align 4, !dbg !65
  %11 = srem i32 %10, 4, !dbg !68
  %12 = icmp eq i32 %11, 0, !dbg !69
  br i1 %12, label %13, label %15, !dbg !70

13:                                               ; preds = %8
  %14 = call i32 @usleep(i32 noundef 100), !dbg !71
  br label %17, !dbg !73

15:                                               ; preds = %8
  %16 = call i32 @sched_yield() #3, !dbg !74
  br label %17

17:                                               ; preds = %15, %13
  br label %4, !dbg !62, !llvm.loop !76

18:                                               ; preds = %4
  %19 = load ptr, ptr @current, align 8, !dbg !79
  %20 = getelementptr inbounds %struct.settings, ptr %19, i32 0, i32 0, !dbg !80
  %21 = load i32, ptr %20, align 4, !dbg !80
  %22 = load ptr, ptr @current, align 8, !dbg !81
  %23 = getelementptr inbounds %struct.settings, ptr %22, i32 0, i32 1, !dbg !82
  %24 = load i32, ptr %23, align 4, !dbg !82
  %25 = mul nsw i32 %21, %24, !dbg !83
  %26 = load ptr, ptr %2, align 8, !dbg !84
  store i32 %25, ptr %26, align 4, !dbg !85
  ret ptr null, !dbg !86
}

; Function Attrs: noinline nounwind optnone uwtable
define internal ptr @publish(ptr noundef %0) #0 !dbg !87 {
  %2 = alloca ptr, align 8
  store ptr %0, ptr %2, align 8
    #dbg_declare(ptr %2, !88, !DIExpression(), !89)
  store i32 80, ptr @chosen, align 4, !dbg !90
  store volatile i32 1, ptr @ready, align 4, !dbg !91
  store ptr @chosen, ptr @current, align 8, !dbg !92
  store i32 25, ptr getelementptr inbounds (%struct.settings, ptr @chosen, i32 0, i32 1), align 4, !dbg !93
  ret ptr null, !dbg !94
}

declare i32 @pthread_join(i64 noundef, ptr noundef) #2

declare i32 @printf(ptr noundef, ...) #2

declare i32 @usleep(i32 noundef) #2

; Function Attrs: nounwind
declare i32 @sched_yield() #1

attributes #0 = { noinline nounwind optnone uwtable "frame-pointer"="all" "min-legal-vector-width"="0" "no-trapping-math"="true" "stack-protector-buffer-size"="8" "target-cpu"="x86-64" "target-features"="+cmov,+cx8,+fxsr,+mmx,+sse,+sse2,+x87" "tune-cpu"="generic" }
attributes #1 = { nounwind "frame-pointer"="all" "no-trapping-math"="true" "stack-protector-buffer-size"="8" "target-cpu"="x86-64" "target-features"="+cmov,+cx8,+fxsr,+mmx,+sse,+sse2,+x87" "tune-cpu"="generic" }
attributes #2 = { "frame-pointer"="all" "no-trapping-math"="true" "stack-protector-buffer-size"="8" "target-cpu"="x86-64" "target-features"="+cmov,+cx8,+fxsr,+mmx,+sse,+sse2,+x87" "tune-cpu"="generic" }
attributes #3 = { nounwind }

!llvm.dbg.cu = !{!9}
!llvm.module.flags = !{!25, !26, !27, !28, !29, !30, !31}
!llvm.ident = !{!32}

!0 = !DIGlobalVariableExpression(var: !1, expr: !DIExpression())
!1 = distinct !DIGlobalVariable(scope: null, file: !2, line: 46, type: !3, isLocal: true, isDefinition: true)
!2 = !DIFile(filename: "published_flag.c", directory: ".", checksumkind: CSK_MD5, checksum: "eb13f8b14f07887b1470a7d18652d59b")
!3 = !DICompositeType(tag: DW_TAG_array_type, baseType: !4, size: 32, elements: !5)
!4 = !DIBasicType(name: "char", size: 8, encoding: DW_ATE_signed_char)
!5 = !{!6}
!6 = !DISubrange(count: 4)
!7 = !DIGlobalVariableExpression(var: !8, expr: !DIExpression())
!8 = distinct !DIGlobalVariable(name: "ready", scope: !9, file: !2, line: 13, type: !24, isLocal: true, isDefinition: true)
!9 = distinct !DICompileUnit(language: DW_LANG_C11, file: !2, producer: "Debian clang version 19.1.7 (3~deb12u1)", isOptimized: false, runtimeVersion: 0, emissionKind: FullDebug, retainedTypes: !10, globals: !14, splitDebugInlining: false, nameTableKind: None)
!10 = !{!11, !12}
!11 = !DIDerivedType(tag: DW_TAG_pointer_type, baseType: null, size: 64)
!12 = !DIDerivedType(tag: DW_TAG_pointer_type, baseType: !13, size: 64)
!13 = !DIBasicType(name: "int", size: 32, encoding: DW_ATE_signed)
!14 = !{!0, !7, !15, !22}
!15 = !DIGlobalVariableExpression(var: !16, expr: !DIExpression())
!16 = distinct !DIGlobalVariable(name: "current", scope: !9, file: !2, line: 12, type: !17, isLocal: true, isDefinition: true)
!17 = !DIDerivedType(tag: DW_TAG_pointer_type, baseType: !18, size: 64)
!18 = distinct !DICompositeType(tag: DW_TAG_structure_type, name: "settings", file: !2, line: 7, size: 64, elements: !19)
!19 = !{!20, !21}
!20 = !DIDerivedType(tag: DW_TAG_member, name: "width", scope: !18, file: !2, line: 8, baseType: !13, size: 32)
!21 = !DIDerivedType(tag: DW_TAG_member, name: "height", scope: !18, file: !2, line: 8, baseType: !13, size: 32, offset: 32)
!22 = !DIGlobalVariableExpression(var: !23, expr: !DIExpression())
!23 = distinct !DIGlobalVariable(name: "chosen", scope: !9, file: !2, line: 11, type: !18, isLocal: true, isDefinition: true)
!24 = !DIDerivedType(tag: DW_TAG_volatile_type, baseType: !13)
!25 = !{i32 7, !"Dwarf Version", i32 5}
!26 = !{i32 2, !"Debug Info Version", i32 3}
!27 = !{i32 1, !"wchar_size", i32 4}
!28 = !{i32 8, !"PIC Level", i32 2}
!29 = !{i32 7, !"PIE Level", i32 2}
!30 = !{i32 7, !"uwtable", i32 2}
!31 = !{i32 7, !"frame-pointer", i32 2}
!32 = !{!"Debian clang version 19.1.7 (3~deb12u1)"}
!33 = distinct !DISubprogram(name: "main", scope: !2, file: !2, line: 38, type: !34, scopeLine: 39, flags: DIFlagPrototyped, spFlags: DISPFlagDefinition, unit: !9, retainedNodes: !36)
!34 = !DISubroutineType(types: !35)
!35 = !{!13}
!36 = !{}
!37 = !DILocalVariable(name: "writer", scope: !33, file: !2, line: 40, type: !38)
!38 = !DIDerivedType(tag: DW_TAG_typedef, name: "pthread_t", file: !39, line: 27, baseType: !40)
!39 = !DIFile(filename: "include/x86_64-linux-gnu/bits/pthreadtypes.h", directory: "", checksumkind: CSK_MD5, checksum: "735e3bf264ff9d8f5d95898b1692fbdb")
!40 = !DIBasicType(name: "unsigned long", size: 64, encoding: DW_ATE_unsigned)
!41 = !DILocation(line: 40, column: 15, scope: !33)
!42 = !DILocalVariable(name: "reader", scope: !33, file: !2, line: 40, type: !38)
!43 = !DILocation(line: 40, column: 23, scope: !33)
!44 = !DILocalVariable(name: "area", scope: !33, file: !2, line: 41, type: !13)
!45 = !DILocation(line: 41, column: 9, scope: !33)
!46 = !DILocation(line: 42, column: 5, scope: !33)
!47 = !DILocation(line: 43, column: 5, scope: !33)
!48 = !DILocation(line: 44, column: 18, scope: !33)
!49 = !DILocation(line: 44, column: 5, scope: !33)
!50 = !DILocation(line: 45, column: 18, scope: !33)
!51 = !DILocation(line: 45, column: 5, scope: !33)
!52 = !DILocation(line: 46, column: 20, scope: !33)
!53 = !DILocation(line: 46, column: 5, scope: !33)
!54 = !DILocation(line: 47, column: 5, scope: !33)
!55 = distinct !DISubprogram(name: "use", scope: !2, file: !2, line: 24, type: !56, scopeLine: 25, flags: DIFlagPrototyped, spFlags: DISPFlagLocalToUnit | DISPFlagDefinition, unit: !9, retainedNodes: !36)
!56 = !DISubroutineType(types: !57)
!57 = !{!11, !11}
!58 = !DILocalVariable(name: "area", arg: 1, scope: !55, file: !2, line: 24, type: !11)
!59 = !DILocation(line: 24, column: 24, scope: !55)
!60 = !DILocalVariable(name: "tries", scope: !55, file: !2, line: 26, type: !13)
!61 = !DILocation(line: 26, column: 9, scope: !55)
!62 = !DILocation(line: 27, column: 5, scope: !55)
!63 = !DILocation(line: 27, column: 13, scope: !55)
!64 = !DILocation(line: 27, column: 12, scope: !55)
!65 = !DILocation(line: 28, column: 13, scope: !66)
!66 = distinct !DILexicalBlock(scope: !67, file: !2, line: 28, column: 13)
!67 = distinct !DILexicalBlock(scope: !55, file: !2, line: 27, column: 20)
!68 = !DILocation(line: 28, column: 21, scope: !66)
!69 = !DILocation(line: 28, column: 25, scope: !66)
!70 = !DILocation(line: 28, column: 13, scope: !67)
!71 = !DILocation(line: 29, column: 13, scope: !72)
!72 = distinct !DILexicalBlock(scope: !66, file: !2, line: 28, column: 31)
!73 = !DILocation(line: 30, column: 9, scope: !72)
!74 = !DILocation(line: 31, column: 13, scope: !75)
!75 = distinct !DILexicalBlock(scope: !66, file: !2, line: 30, column: 16)
!76 = distinct !{!76, !62, !77, !78}
!77 = !DILocation(line: 33, column: 5, scope: !55)
!78 = !{!"llvm.loop.mustprogress"}
!79 = !DILocation(line: 34, column: 20, scope: !55)
!80 = !DILocation(line: 34, column: 29, scope: !55)
!81 = !DILocation(line: 34, column: 37, scope: !55)
!82 = !DILocation(line: 34, column: 46, scope: !55)
!83 = !DILocation(line: 34, column: 35, scope: !55)
!84 = !DILocation(line: 34, column: 13, scope: !55)
!85 = !DILocation(line: 34, column: 18, scope: !55)
!86 = !DILocation(line: 35, column: 5, scope: !55)
!87 = distinct !DISubprogram(name: "publish", scope: !2, file: !2, line: 15, type: !56, scopeLine: 16, flags: DIFlagPrototyped, spFlags: DISPFlagLocalToUnit | DISPFlagDefinition, unit: !9, retainedNodes: !36)
!88 = !DILocalVariable(name: "unused", arg: 1, scope: !87, file: !2, line: 15, type: !11)
!89 = !DILocation(line: 15, column: 28, scope: !87)
!90 = !DILocation(line: 17, column: 18, scope: !87)
!91 = !DILocation(line: 18, column: 11, scope: !87)
!92 = !DILocation(line: 19, column: 13, scope: !87)
!93 = !DILocation(line: 20, column: 19, scope: !87)
!94 = !DILocation(line: 21, column: 5, scope: !87)
