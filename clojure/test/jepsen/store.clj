(ns jepsen.store
  "Stands in for Jepsen's namespace in the tests: the files of a test's folder."
  (:require [clojure.java.io :as io]))

(defn path! [test & names]
  (let [file (apply io/file (:folder test) (map str (remove nil? (flatten names))))]
    (io/make-parents file)
    file))
