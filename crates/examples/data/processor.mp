; A processor with an accumulator of 8 bits. It runs a program from the memory of a board:
; `macpitts board processor.mp processor.cif 220 memory:bus:word`.
; An instruction is two words, its number and an address. First the process writes the program into the memory, which sees
; bus: bits 0 to 7 are its next address, and where bit 8 is 1 the bits above are stored at the last one.
; The program adds up 5, 4, 3, 2 and 1, and shows each sum.
(program processor 17
  (def 1 power) (def 2 ground) (def 3 phia) (def 4 phib) (def 5 phic)
  (def reset signal input 6)
  (def word port input (7 8 9 10 11 12 13 14 15 16 17 18 19 20 21 22 23))
  (def bus port output (24 25 26 27 28 29 30 31 32 33 34 35 36 37 38 39 40))
  (def out port output (41 42 43 44 45 46 47 48 49 50 51 52 53 54 55 56 57))
  (def halted signal output 58)
  (def load constant 1)           ; the accumulator takes the word at the address
  (def add constant 2)            ; adds it
  (def sub constant 3)            ; takes it away
  (def store constant 4)          ; the word at the address takes the accumulator
  (def jump constant 5)           ; goes on at the address
  (def jump-zero constant 6)      ; goes on there if the accumulator is 0
  (def call-at constant 7)        ; does too, always, and keeps where to return to
  (def return-to constant 8)      ; goes on there
  (def show constant 9)           ; shows the accumulator
  (def byte constant 255)
  (def write constant 256)
  (def pc register)               ; the address of the next word of the program
  (def op register)               ; the instruction
  (def acc register)              ; the accumulator
  (def link register)             ; where to return to
  (def shown register)
  (always (setq out shown))
  (process main 0
    (setq bus 3841)         ; 0: 7, call-at 14, which adds up
    (setq bus 7426)         ; 1: 14
    (setq bus 771)          ; 2: 1, load n, which stands at 24
    (setq bus 12548)        ; 3: 24
    (setq bus 1797)         ; 4: 3, sub one, at 25
    (setq bus 13062)        ; 5: 25
    (setq bus 2311)         ; 6: 4, store n
    (setq bus 12552)        ; 7: 24
    (setq bus 3337)         ; 8: 6, jump-zero 12, the end
    (setq bus 6410)         ; 9: 12
    (setq bus 2830)         ; 10: 5, jump 0, the start
    (setq bus 783)          ; 14: 1, load the sum, at 26
    (setq bus 13584)        ; 15: 26
    (setq bus 1297)         ; 16: 2, add n
    (setq bus 12562)        ; 17: 24
    (setq bus 2323)         ; 18: 4, store the sum
    (setq bus 13588)        ; 19: 26
    (setq bus 4886)         ; 20: 9, show
    (setq bus 4376)         ; 22: 8, return-to
    (setq bus 2841)         ; 24: 5, n
    (setq bus 768)          ; 25: 1, one
    next
    (par (setq bus pc) (setq pc (1+ pc)))
    (par (setq op word) (setq bus pc) (setq pc (1+ pc)))
    (cond
      ((= op load) (setq bus word))
      ((= op add) (setq bus word) (go add-word))
      ((= op sub) (setq bus word) (go sub-word))
      ((= op store) (setq bus word) (go store-word))
      ((= op jump) (setq pc word) (go next))
      ((= op jump-zero) (cond ((=0 acc) (setq pc word))) (go next))
      ((= op call-at) (setq link pc) (setq pc word) (go next))
      ((= op return-to) (setq pc link) (go next))
      ((= op show) (setq shown acc) (go next))
      (t (go halt)))
    (par (setq acc word) (go next))
    add-word
    (par (setq acc (word-and byte (+ acc word))) (go next))
    sub-word
    (par (setq acc (word-and byte (- acc word))) (go next))
    store-word
    (par (setq bus (word-or write (<< (<< (<< (<< (<< (<< (<< (<< (<< acc))))))))))) (go next))
    halt
    (par (setq halted t) (go halt))))
