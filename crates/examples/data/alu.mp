; An arithmetic unit: op says what is made of a and b. What is told of the result, and what op names, is written once, as functions.
(program alu 8
  (def 1 power) (def 2 ground) (def 3 phia) (def 4 phib) (def 5 phic)
  (def op port input (6 7 8 9 10 11 12 13))
  (def a port input (14 15 16 17 18 19 20 21))
  (def b port input (22 23 24 25 26 27 28 29))
  (def result port output (30 31 32 33 34 35 36 37))
  (def less signal output 38)
  (def odd signal output 39)
  (def sign constant 128)
  ; the mean of two words, without a carry that is lost
  (def mean function (v w) (+ (word-and v w) (>> (word-xor v w))))
  (def gray function (v) (word-xor v (>> v)))
  ; words below 0 are those whose highest bit is 1
  (def below function (v w) (< (word-xor v sign) (word-xor w sign)))
  ; whether an odd number of bits are 1
  (def fold-4 function (v) (word-xor v (>> (>> (>> (>> v))))))
  (def fold-2 function (v) (word-xor v (>> (>> v))))
  (def parity function (v) (bit 0 (gray (fold-2 (fold-4 v)))))
  (always
    (cond
      ((=0 op) (setq result (+ a b)))
      ((= op 1) (setq result (- a b)))
      ((= op 2) (setq result (mean a b)))
      ((= op 3) (setq result (gray a)))
      (t (setq result (word-xor a b))))
    (setq less (below a b))
    (setq odd (parity result))))
