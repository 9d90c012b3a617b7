;; data-without-memory: a segment, and no memory
(assert_invalid (module
(import "env" "putchar" (func $putchar (param i32)))
(data (i32.const 0) "x")
(func (export "main") (call $putchar (i32.const 65)) )) "unknown memory")
