; A shop's dashboard: counters and totals of its orders, each of which is (ITEM PRICE COUNT).
(define-event order)
(define-event refund)
(define-input goal 1000)

(define (amount o) (* (list-ref o 1) (list-ref o 2)))

(define orders (collect-b order 0 (lambda (o n) (+ n 1))))
(define ordered (collect-b order 0 (lambda (o sum) (+ sum (amount o)))))
(define refunded (collect-b refund 0 (lambda (money sum) (+ sum money))))
(define revenue (- ordered refunded))

(show orders orders)
(show revenue revenue)
(show mean (if (= orders 0) 0 (quotient revenue orders)))
(show largest (collect-b order 0 (lambda (o most) (max most (amount o)))))
(show percent (quotient (* 100 revenue) goal))
(show reached (once-e (filter-e (lambda (so) so) (changes (<= goal revenue)))))
