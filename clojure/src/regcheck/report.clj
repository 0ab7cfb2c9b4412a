(ns regcheck.report
  "Reads the lines of a report. Each is an object of JSON, of which an escape in a register's name
  is left as it is."
  (:require [clojure.string :as str]))

(def ^:private token #"\"(?:[^\"\\]|\\.)*\"|-?[0-9]+|true|false|null|[\[\]{},:]")

(declare value)

(defn- items
  "The values up to the closing token, and the tokens behind it."
  [tokens closing]
  (loop [tokens tokens, found []]
    (cond (= closing (first tokens)) [found (rest tokens)]
          (#{"," ":"} (first tokens)) (recur (rest tokens) found)
          :else (let [[item tokens] (value tokens)] (recur tokens (conj found item))))))

(defn- value
  "The first value, and the tokens behind it."
  [[token & tokens]]
  (case token
    "{" (let [[found tokens] (items tokens "}")]
          [(into {} (map (fn [[name item]] [(keyword name) item]) (partition 2 found))) tokens])
    "[" (items tokens "]")
    "true" [true tokens]
    "false" [false tokens]
    "null" [nil tokens]
    (if (str/starts-with? token "\"")
      [(subs token 1 (dec (count token))) tokens]
      [(parse-long token) tokens])))

(defn rows
  "The rows of the registers, and last the summary."
  [report]
  (mapv (fn [line] (first (value (re-seq token line)))) (str/split-lines report)))
