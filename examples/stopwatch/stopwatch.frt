; A stopwatch. Times are in milliseconds.
(define-event start)
(define-event stop)
(define-event lap)
(define-event tick)
(define-input armed #t)
(define-input limit 900)
(define-input unit 10)
(define running
  (hold (merge-e (map-e (lambda (v) #f) stop)
                 (map-e (lambda (v) #t) start)) #f))
(define was (delay #f running))
(define began (hold (map-e (lambda (v) now) start) 0))
(define banked
  (collect-b stop 0 (lambda (v a) (if was (+ a (- now began)) a))))
(define elapsed (if running (+ banked (- now began)) banked))
(define laps
  (collect-b lap '() (lambda (v a)
    (if running (append a (list elapsed)) a))))
(define over (< limit elapsed))
(show time (quotient elapsed unit))
(show laps laps)
(show here
  (if armed (if running (collect-b lap 0 (lambda (v a) (+ a 1))) -1) -2))
(show over over)
(show beep (filter-e (lambda (b) b) (changes over)))
