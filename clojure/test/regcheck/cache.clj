(ns regcheck.cache
  "Runs three clients of a cache in front of a database as Jepsen would, and says whether what they
  saw is linearizable:

      clojure -cp src:test -m regcheck.cache faulty
      clojure -cp src:test -m regcheck.cache right

  The faulty one keeps a value that it read before a write. tests/languages compares what all
  languages say of it."
  (:require [regcheck.toy :as toy]))

(defn write! [store k v]
  (swap! store #(-> %
                    (assoc-in [:database k] v)
                    (update-in [:writes k] (fnil inc 0))
                    (update :kept dissoc k)))
  v)

(defn read!
  "What the cache gives. loaded is called between reading the database and keeping the value."
  [store counts k loaded]
  (let [{:keys [kept database writes]} @store]
    (or (kept k)
        (let [v (database k)]
          (loaded)
          (swap! store #(if (or (not counts) (= (writes k) (get-in % [:writes k])))
                          (assoc-in % [:kept k] v)
                          %))
          v))))

(defn record
  "The writer writes again while the reader's answer from the database is on its way."
  [op! counts]
  (let [store (atom {:database {} :kept {} :writes {}})
        write (fn [v]
                (op! :invoke 1 :write v)
                (op! :ok 1 :write (write! store "x" v)))
        read (fn [process loaded]
               (op! :invoke process :read nil)
               (op! :ok process :read (read! store counts "x" loaded)))]
    (write 1)
    (read 2 #(write 2))
    (read 3 (fn []))))

(defn -main [kind]
  (toy/run kind {:nodes ["cache"]} {} record))
