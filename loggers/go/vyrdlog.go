// Package vyrdlog writes the log of a concurrent program, which `vyrd check` judges.
//
//	log, err := vyrdlog.Create(vyrdlog.NewHeader(1, "multiset", 1, 2), "run.log", vyrdlog.Options{})
//	...
//	defer log.Close()
//	caller, err := log.Caller() // one for each goroutine
//	...
//	caller.Call("insert", 5)
//	caller.Step(func(lines *vyrdlog.Lines) {
//		slot.value = 5 // what the program does, and the lines that tell of it, are one step
//		lines.Write(1, 5)
//	})
//	...
//	caller.Returns(1)
//	err = log.Finish()
//
// The steps of all callers take place one after the other, under one lock, so the lines stand in
// the order in which the program did what they tell of. Where the program has a lock round each
// change and each look, [ByNumbers] does without this one.
//
// What is kept in the buffer is written every 20 milliseconds too, and each write ends with a whole
// line. So a program that hangs, or that ends in another way than by [Log.Finish], leaves a log
// that `vyrd check` can read. Go calls nothing where a program ends, so what comes after the last
// of these writes is lost if [Log.Close] doesn't come.
package vyrdlog

// Bool is the reply of a method that says yes or no: 1 for true, and 0 for false.
func Bool(reply bool) uint64 {
	if reply {
		return 1
	}
	return 0
}
