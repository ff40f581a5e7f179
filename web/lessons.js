"use strict";
// Five lessons: each a text, a program, what is done at first, and where to look.

const COUNTER = `; Two threads add one to a counter, with no lock.
.class public Counter
.super java/lang/Thread
.field static count I
.method run()V
.limit stack 2
.limit locals 1
getstatic Counter/count I
iconst_1
iadd
putstatic Counter/count I
return
.end method
.method public static main()V
.limit stack 2
.limit locals 2
new Counter
astore_0
new Counter
astore_1
aload_0
invokevirtual Counter/start()V
aload_1
invokevirtual Counter/start()V
aload_0
invokevirtual Counter/join()V
aload_1
invokevirtual Counter/join()V
getstatic Counter/count I
invokestatic vm/Sys/print(I)V
return
.end method
`;

const LIST = `; A list of three, of which the last two are dropped: what is black, what is grey, and what is swept.
.class public List
.super java/lang/Object
.field static first LList;
.field next LList;
.method public static main()V
.limit stack 3
.limit locals 2
new List
dup
putstatic List/first LList;
astore_0
new List
astore_1
aload_0
aload_1
putfield List/next LList;
aload_1
new List
putfield List/next LList;
aconst_null
astore_1
aload_0
aconst_null
putfield List/next LList;
aconst_null
astore_0
iconst_5
istore_1
Again:
iinc 1 -1
iload_1
ifne Again
return
.end method
`;

const BARRIER = `; A reference moves to where the collector has been, and goes from where it wasn't yet.
.class public Moved
.super java/lang/Object
.field static early Ljava/lang/Object;
.method public static main()V
.limit stack 1
.limit locals 1
new java/lang/Object
astore_0
nop
aload_0
putstatic Moved/early Ljava/lang/Object;
aconst_null
astore_0
iconst_0
istore_0
Wait:
iinc 0 1
iload_0
bipush 9
if_icmplt Wait
return
.end method
`.replace(".limit stack 1", ".limit stack 2");

const turns = (text) => text.split(" ").flatMap((word) => {
  const [actor, times] = word.split("x");
  return Array(Number(times ?? 1)).fill(actor);
});

const LESSONS = [
  {
    title: "What a turn is",
    sources: [{ name: "sum.j", example: "sum" }],
    shape: { small: 4, medium: 0, large: 0 },
    moves: [{ kind: "turns", actors: turns("0 0") }],
    look: "threads",
    text: [
      "A thread moves by turns. One turn is one instruction. Whose turn it is is up to you: press “Thread” (key S) and look at the locals and the stack of its frame.",
      "The collector has turns too. Press “Collector” (key C). It takes one small step of its cycle.",
      "Each turn that is made leaves a row in the journal. The rows are all that there is to know of a run: choose one, and you see the machine as it was after it. Nothing is kept but the rows; the machine makes them again.",
    ],
  },
  {
    title: "The three colours",
    sources: [{ name: "List.j", text: LIST }],
    shape: { small: 8, medium: 0, large: 0 },
    moves: [{ kind: "rounds", n: 12, gc: 2 }],
    look: "heap",
    text: [
      "A cell that holds an object has a colour. White: not yet seen in this cycle. Grey: seen, but not yet what it refers to. Black: seen, with all that it refers to.",
      "The collector greys what static fields and frames refer to, then takes one grey cell after another, greys what it refers to and blackens it. When nothing is grey, what is still white is given back.",
      "Go on with “Round” (key R), and watch the phase and the cells of births 4 and 5: the program drops them, and a cycle later their cells are free.",
    ],
  },
  {
    title: "Why there is a write barrier",
    sources: [{ name: "Moved.j", text: BARRIER }],
    shape: { small: 6, medium: 0, large: 0 },
    moves: [{ kind: "turns", actors: turns("0x2 cx21") }],
    look: "heap",
    text: [
      "The collector is in its second cycle. It has gone over the static fields and comes to the frames. Object #3 is held by a local alone, and it is still white.",
      "Now the thread takes #3 from the local, puts it into a static field, where the collector has been, and drops the local, before the collector comes there. Give it five turns (S). Without more, nobody would grey #3 in this cycle, and it would be swept although a path leads to it.",
      "But each instruction that puts a reference into a frame or a field greys what it refers to. Look at cell 2 after the second turn: it is grey. Go on with the collector (C): #3 is never lost. That no object is ever lost, in no schedule, is proved.",
    ],
  },
  {
    title: "A lost update",
    sources: [{ name: "Counter.j", text: COUNTER }],
    shape: { small: 8, medium: 0, large: 0 },
    moves: [{ kind: "turns", actors: turns("0x8 1x3 2x5 1x2") }],
    look: "statics",
    text: [
      "Two threads add one each. Thread 1 has read 0 and added 1, but not yet written. Then thread 2 did all its work, and after that thread 1 wrote what it had.",
      "Look at the static field: it is 1, and not 2. One update is lost. Choose the row where thread 1 read, and go on from there in another order (keys 1 and 2): you get 2.",
      "Press “Explore” (key E), further down: every schedule is tried, and there are two outcomes, 2 and 1. Open either, and you see a run to it.",
      "The program has no lock. In workers.j a monitor keeps the others out between the read and the write.",
    ],
  },
  {
    title: "A deadlock",
    sources: [{ name: "D.j", example: "D" }],
    shape: { small: 8, medium: 0, large: 0 },
    moves: [{ kind: "rounds", n: 12, gc: 1 }],
    look: "threads",
    text: [
      "Each thread holds the monitor of one object and waits for the other's. No thread is ready: the machine is stuck.",
      "Look at the threads: both stand at a monitorenter. The heap tells who owns which monitor: choose the cells of #3 and #4.",
      "It need not come to that. Choose row 0 and let thread 0 go first all the way (key 0, fifteen times). Then run: the program ends.",
      "“Explore” (key E), further down, finds both outcomes, and no third one.",
    ],
  },
];
