(ns regcheck.toy
  "Runs toy stores whose events are the same in each language, as Jepsen would. tests/languages compares what
  is said of them."
  (:require [jepsen.checker :as checker]
            [regcheck.checker :as regcheck]))

(defrecord Op [index time type process f value])

(defn- recorded
  "The history that a store's run makes with op!, which adds an operation."
  [record right]
  (let [history (atom [])]
    (record (fn [type process f value & [more]]
              (swap! history #(conj % (merge (->Op (count %) (* 1000000 (inc (count %))) type process f value)
                                             more))))
            right)
    @history))

(defn run
  "Runs a store, and prints the verdict in words. The kind says which store: faulty or right, or, for the
  right one and a search that soon gives up, bounded."
  [kind test opts record]
  (let [test (assoc test :folder "kept" :concurrency 4)
        opts (cond-> opts (= kind "bounded") (assoc :steps 1))
        history (recorded record (not= kind "faulty"))
        {:keys [valid? words cause]} (checker/check (regcheck/checker opts) test history {})]
    (println (if (true? valid?) "linearizable" (or words cause)))
    (shutdown-agents)
    (System/exit (if (true? valid?) 0 1))))
