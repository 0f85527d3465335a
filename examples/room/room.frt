; A heated room, simulated minute by minute. Temperatures are in tenths of a degree.
(define-event tick)
(define-input outside 50)
(define-input wanted 200)
(define-input window #f)

; how many hundredths of the difference to outside are lost in a minute
(define leak (if window 20 5))

; the state is (INSIDE HEATING); the heater goes on below the wanted temperature and off above it
(define (minute state outside wanted leak)
  (let* ((inside (first state))
         (lost (quotient (* leak (- inside outside)) 100))
         (heating (cond ((< inside (- wanted 5)) #t)
                        ((< (+ wanted 5) inside) #f)
                        (else (list-ref state 1)))))
    (list (+ (- inside lost) (if heating 12 0)) heating)))

(define room
  (collect-b tick (list 180 #f) (lambda (t state) (minute state outside wanted leak))))
(define inside (first room))
(define heating (list-ref room 1))

(show inside inside)
(show heating heating)
(show trend
  (let ((change (- inside (delay 180 inside))))
    (cond ((< 0 change) 'rising) ((< change 0) 'falling) (else 'steady))))
(show heated (collect-b tick 0 (lambda (t minutes) (if heating (+ minutes 1) minutes))))
(show frost (filter-e (lambda (cold) cold) (changes (< inside 150))))
