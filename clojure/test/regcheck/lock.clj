(ns regcheck.lock
  "Runs two clients that take a lock by compare-and-swap at once as Jepsen would, and says whether what they
  saw is linearizable:

      clojure -cp src:test -m regcheck.lock faulty
      clojure -cp src:test -m regcheck.lock right

  The faulty register compares and swaps in two steps, so both clients get the lock. tests/languages compares
  what all languages say of it."
  (:require [regcheck.toy :as toy]))

(defn swap-in-two-steps!
  "Whether the swap took place. compared is called between the two steps."
  [store looks-again from to compared]
  (when (= from @store)
    (compared)
    (when (or (not looks-again) (= from @store))
      (reset! store to)
      true)))

(defn record
  "A second client takes the lock while the first one is between its two steps."
  [op! looks-again]
  (let [store (atom nil)
        free (fn [process]
               (op! :invoke process :write 0)
               (reset! store 0)
               (op! :ok process :write 0))
        take-it (fn [process compared]
                  (op! :invoke process :cas [0 1])
                  (op! (if (swap-in-two-steps! store looks-again 0 1 compared) :ok :fail)
                       process :cas [0 1]))]
    (free 1)
    (take-it 2 #(take-it 1 (fn [])))
    (free 1)
    (op! :invoke 3 :read nil)
    (op! :ok 3 :read @store)))

(defn -main [kind]
  (toy/run kind {:nodes ["register"]} {:register "lock" :failed-cas :missed} record))
