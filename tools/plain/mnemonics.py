"""The mnemonics of instructions and their opcodes, by how their operands are written (JVMS 6.5)."""
BARE = {0: "nop aconst_null iconst_m1 iconst_0 iconst_1 iconst_2 iconst_3 iconst_4 iconst_5 lconst_0 lconst_1", 46: "iaload laload",
        50: "aaload baload caload saload", 79: "iastore lastore", 83: "aastore bastore castore sastore",
        87: "pop pop2 dup dup_x1 dup_x2 dup2 dup2_x1 dup2_x2 swap iadd ladd", 100: "isub lsub", 104: "imul lmul", 108: "idiv ldiv",
        112: "irem lrem", 116: "ineg lneg", 120: "ishl lshl ishr lshr iushr lushr iand land ior lor ixor lxor", 133: "i2l", 136: "l2i",
        145: "i2b i2c i2s lcmp", 172: "ireturn lreturn", 176: "areturn return", 190: "arraylength athrow", 194: "monitorenter monitorexit"}
BRANCH = {153: "ifeq ifne iflt ifge ifgt ifle if_icmpeq if_icmpne if_icmplt if_icmpge if_icmpgt if_icmple if_acmpeq if_acmpne goto",
          198: "ifnull ifnonnull"}
ON_LOCAL = dict(iload=21, lload=22, aload=25, istore=54, lstore=55, astore=58)
FIRST = dict(iload=26, lload=30, aload=42, istore=59, lstore=63, astore=75)
FIELDS = dict(getstatic=178, putstatic=179, getfield=180, putfield=181)
CALLS = dict(invokevirtual=182, invokespecial=183, invokestatic=184)
CLASSES = dict(new=187, anewarray=189, checkcast=192, instanceof=193)
PRIMITIVE = dict(char=5, byte=8, short=9, int=10, long=11)


def numbered(table):
    return {name: first + n for first, names in table.items() for n, name in enumerate(names.split())}


BARE, BRANCH = numbered(BARE), numbered(BRANCH)
