(ns regcheck.changes
  "Runs one client that creates, replaces, swaps, deletes and locks as Jepsen would, and says whether what it
  saw is linearizable:

      clojure -cp src:test -m regcheck.changes faulty
      clojure -cp src:test -m regcheck.changes right

  The faulty store gives a value that was deleted. tests/languages compares what all languages say of it."
  (:require [jepsen.independent :as independent]
            [regcheck.toy :as toy]))

(defn record
  "One client makes all calls, while another one says when a value may expire."
  [op! right]
  (let [call (fn [register f asked & {:as answer}]
               (op! :invoke 1 f (independent/tuple register asked))
               (op! (:type answer :ok) 1 f (independent/tuple register (:value answer asked))
                    (dissoc answer :type :value)))]
    (call 'x :create 5)
    (call 'x :create 6 :type :fail)
    (call 'x :replace 7)
    (call 'x :swap 8 :old 7)
    (op! :invoke 2 :expires (independent/tuple 'x 8))
    (call 'x :delete nil :found true)
    (call 'x :read nil :value (when-not right 8))
    (call 'x :delete nil)
    (call 'lock :lock 1)
    (call 'lock :unlock 1)))

(defn -main [kind]
  (toy/run kind {:nodes ["store"]} {:failed-cas :missed} record))
