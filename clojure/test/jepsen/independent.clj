(ns jepsen.independent
  "Stands in for Jepsen's namespace in the tests: its pairs of a key and a value.")

(defn tuple [k v] (clojure.lang.MapEntry. k v))

(defn tuple? [value] (instance? clojure.lang.MapEntry value))
