(ns regcheck.checker-test
  "Run it by: clojure -cp src:test -m regcheck.checker-test"
  (:require [clojure.java.io :as io]
            [clojure.string :as str]
            [clojure.test :refer [deftest is run-tests testing]]
            [jepsen.checker :as checker]
            [jepsen.independent :refer [tuple]]
            [regcheck.checker :as regcheck]
            [regcheck.programs :as programs]
            [regcheck.toy :as toy])
  (:import (java.nio.file Files)
           (java.nio.file.attribute FileAttribute)))

(defn- ops
  "A history of rows of process, type, f and value."
  [& rows]
  (map-indexed (fn [index [process type f value]] (toy/->Op index (* 1000 index) type process f value)) rows))

(defn- with-folder [use]
  (let [folder (str (Files/createTempDirectory "regcheck-" (make-array FileAttribute 0)))]
    (try (use folder)
         (finally (run! io/delete-file (reverse (file-seq (io/file folder))))))))

(defn- judged
  "The result of a history, and the names of what the store's folder has then."
  ([history] (judged history {} {}))
  ([history opts check-opts]
   (with-folder
     (fn [folder]
       (let [test {:folder folder :concurrency 3 :nodes ["n1" "n2"]}
             result (checker/check (regcheck/checker opts) test history check-opts)]
         (assoc result
                ::lines (some-> (get-in result [:files :history]) slurp)
                ::report (some-> (get-in result [:files :report]) slurp)
                ::left (set (map #(subs (str %) (inc (count folder)))
                                 (filter #(.isFile %) (file-seq (io/file folder)))))))))))

(def stale
  "A read of 1 after the write of 2 was answered."
  (ops [0 :invoke :write 1] [0 :ok :write 1] [0 :invoke :write 2] [0 :ok :write 2]
       [1 :invoke :read nil] [1 :ok :read 1]))

(deftest one-register
  (let [history (ops [0 :invoke :write 1]
                     [:nemesis :info :start nil]
                     [0 :ok :write 1]
                     [1 :invoke :read nil]
                     [0 :invoke :write 2]
                     [0 :info :write 2]
                     [3 :invoke :write 3]
                     [3 :fail :write 3]
                     [1 :ok :read 2])
        {:keys [valid? analyzer completed-reads operations registers] :as result} (judged history)]
    (is (= [true :regcheck 1 3 1] [valid? analyzer completed-reads operations registers]))
    (is (= #{"regcheck.jsonl" "regcheck.report"} (::left result)))
    (is (= (::lines result)
           (str "{\"process\":0,\"event\":\"call\",\"op\":\"write\",\"register\":\"x\",\"value\":1,\"client\":\"thread-0\",\"node\":\"n1\",\"time\":0}\n"
                "{\"process\":0,\"event\":\"reply\",\"op\":\"write\",\"register\":\"x\",\"client\":\"thread-0\",\"node\":\"n1\",\"time\":2000}\n"
                "{\"process\":1,\"event\":\"call\",\"op\":\"read\",\"register\":\"x\",\"client\":\"thread-1\",\"node\":\"n2\",\"time\":3000}\n"
                "{\"process\":0,\"event\":\"call\",\"op\":\"write\",\"register\":\"x\",\"value\":2,\"client\":\"thread-0\",\"node\":\"n1\",\"time\":4000}\n"
                "{\"process\":3,\"event\":\"call\",\"op\":\"write\",\"register\":\"x\",\"value\":3,\"client\":\"thread-0\",\"node\":\"n1\",\"time\":6000}\n"
                "{\"process\":3,\"event\":\"fail\",\"client\":\"thread-0\",\"node\":\"n1\",\"time\":7000}\n"
                "{\"process\":1,\"event\":\"reply\",\"op\":\"read\",\"register\":\"x\",\"value\":2,\"client\":\"thread-1\",\"node\":\"n2\",\"time\":8000}\n")))))

(deftest a-fault
  (let [{:keys [valid? analyzer op previous-ok faults faulty-registers words] :as result} (judged stale)]
    (is (= [false :regcheck 5 3 1] [valid? analyzer (:index op) (:index previous-ok) faulty-registers]))
    (is (= [{:kind :zones :first [1 3] :second [3 5] :writes [1 3]}]
           (map (fn [fault] (update-vals fault #(if (vector? %) (mapv :index %) %))) faults)))
    (is (str/includes? words "Register \"x\" is not linearizable"))
    (is (= #{"regcheck.jsonl" "regcheck.report" "regcheck.txt" "regcheck.html"} (::left result)))))

(deftest a-value-that-nobody-wrote
  (let [{:keys [valid? op faults]} (judged (ops [1 :invoke :read nil] [1 :ok :read 7]))]
    (is (= [false 1 :unwritten] [valid? (:index op) (:kind (first faults))]))))

(defn- contended
  "Two processes take a lock at once. The second one gets it too, or finds another value, or nobody knows."
  [second-end]
  (ops [0 :invoke :write 0] [0 :ok :write 0]
       [1 :invoke :cas [0 1]] [2 :invoke :cas [0 1]] [1 :ok :cas [0 1]]
       [2 second-end :cas [0 1]]
       [0 :invoke :write 0] [0 :ok :write 0]
       [1 :invoke :read nil] [1 :ok :read 0]))

(deftest each-end-of-a-cas
  (doseq [[second-end opts valid? answered line]
          [[:ok {} false nil
            "{\"process\":2,\"event\":\"reply\",\"op\":\"cas\",\"register\":\"x\",\"ok\":true,"]
           [:fail {} true 2 "{\"process\":2,\"event\":\"fail\","]
           [:fail {:failed-cas :missed} true 3
            "{\"process\":2,\"event\":\"reply\",\"op\":\"cas\",\"register\":\"x\",\"ok\":false,"]
           [:info {} true 2
            "{\"process\":0,\"event\":\"call\",\"op\":\"write\",\"register\":\"x\",\"value\":0,"]]]
    (let [result (judged (contended second-end) opts {})
          lines (str/split-lines (::lines result))]
      (is (= [valid? :regsearch answered] [(:valid? result) (:analyzer result) (:completed-reads result)]))
      (is (str/starts-with?
           (lines 2)
           "{\"process\":1,\"event\":\"call\",\"op\":\"cas\",\"register\":\"x\",\"from\":0,\"to\":1,"))
      (is (str/starts-with? (lines 5) line)))))

(deftest what-a-failed-cas-says
  (doseq [[error from ok] [[nil nil false] [:precondition-failed nil false]
                           [[:precondition-failed "is 2"] nil false]
                           ["precondition-failed" nil false]
                           [:key-does-not-exist 1 false] [:key-does-not-exist nil nil] [:not-leader 1 nil]]]
    (let [failed #(cond-> % (= :fail (:type %)) (assoc :error error))
          history (map failed (ops [1 :invoke :cas [from 2]] [1 :fail :cas [from 2]]
                                   [0 :invoke :read nil] [0 :ok :read nil]))
          lines (str/split-lines (::lines (judged history {:failed-cas :missed} {})))]
      (is (= (false? ok) (str/includes? (lines 1) "\"ok\":false")) error)
      (is (= (nil? ok) (str/includes? (lines 1) "\"event\":\"fail\"")) error))))

(deftest a-fault-of-a-search
  (let [{:keys [valid? op previous-ok faults configs final-paths words] :as result} (judged (contended :ok))]
    (is (= [false 5 4] [valid? (:index op) (:index previous-ok)]))
    (is (= [[:search 5 [1 4] [5]]]
           (map (fn [fault] [(:kind fault) (:index (:reply fault))
                             (mapv :index (:before fault)) (mapv :index (:asks fault))])
                faults)))
    (is (= [[[1 {:value 0}] [4 {:value 1}] [5 {:msg "no order gives this answer"}]]]
           (map (fn [path] (map (fn [{:keys [op model]}] [(:index op) model]) path)) final-paths)))
    (is (= [[{:value 1} 4 [3]]]
           (map (fn [{:keys [model last-op pending]}] [model (:index last-op) (map :index pending)])
                configs)))
    (is (str/includes? words "the cas from 0 to 1"))
    (is (= #{"regcheck.jsonl" "regcheck.report" "regcheck.txt" "regcheck.html"} (::left result)))))

(deftest a-search-that-gives-up
  (let [{:keys [valid? analyzer cause words] :as result}
        (judged (contended :fail) {:failed-cas :missed :steps 1} {})]
    (is (= [:unknown :regsearch] [valid? analyzer]))
    (is (str/includes? cause "raise the option :steps"))
    (is (str/includes? words "unknown: the search gave up on 1 register"))
    (is (str/includes? (:cause (judged (contended :fail) {:configurations 0} {}))
                       "'0' for '--configurations"))
    (is (str/includes? (::report result) "\"gave_up\":{\"bound\":\"steps\"}"))))

(deftest keys-of-independent
  (let [keyed (fn [k history] (map #(update % :value (partial tuple k)) history))
        right (ops [2 :invoke :write 1] [2 :ok :write 1])]
    (testing "a whole history, whose keys may be alike in print"
      (let [{:keys [valid? registers faulty-registers] :as result}
            (judged (concat (keyed 1 right) (keyed "1" stale)))]
        (is (= [false 2 1] [valid? registers faulty-registers]))
        (is (str/includes? (::report result) "\"register\":\"\\\"1\\\"\""))))
    (testing "the history of one key"
      (let [result (judged stale {} {:subdirectory ["independent" 4] :history-key 4})]
        (is (false? (:valid? result)))
        (is (str/includes? (::report result) "\"register\":\"4\""))
        (is (contains? (::left result) "independent/4/regcheck.html"))))
    (testing "cas with keys"
      (let [{:keys [valid? registers op configs] :as result}
            (judged (concat (keyed 1 right) (keyed 2 (contended :ok))))]
        (is (= [false 2 [2 [0 1]]] [valid? registers (:value op)]))
        (is (= [{:value 1}] (map :model configs)))
        (is (str/includes?
             (::report result)
             "\"cas\":2,\"fault\":{\"asks\":[6],\"before\":[3,5],\"kind\":\"search\",\"reply\":8}"))))
    (testing "an operation without a key among those with one"
      (is (str/includes? (:cause (judged (concat (keyed 1 right) stale))) "has no key")))))

(deftest without-a-verdict
  (doseq [[words history]
          {"no read was completed" (ops [0 :invoke :write 1] [0 :ok :write 1])
           "the :f of" (ops [0 :invoke :append 1] [0 :ok :append 1])
           "is no [from to]" (ops [0 :invoke :cas 1] [0 :ok :cas 1])
           "[1 nil] of" (ops [0 :invoke :cas [1 nil]] [0 :ok :cas [1 nil]])
           "number your values" (ops [0 :invoke :write "a"] [0 :ok :write "a"])
           "64 bits" (ops [0 :invoke :read nil] [0 :ok :read (inc (bigint Long/MAX_VALUE))])
           "the :type of" (ops [0 :invoke :read nil] [0 :okay :read 1])
           "line 1: " (ops [0 :ok :read 1])}]
    (let [{:keys [valid? cause]} (judged history)]
      (is (= :unknown valid?) words)
      (is (str/includes? (str cause) words)))))

(def back
  "A process reads the newer value, and then the older one."
  (concat stale (map #(update % :index + 6) (ops [1 :invoke :read nil] [1 :ok :read 2]
                                                 [1 :invoke :read nil] [1 :ok :read 1]))))

(deftest levels
  (doseq [[level history valid?] [[:session stale true] [:regular stale false] ["own_writes" back true]
                                  [:own-writes back true] [:session back false] [:monotonic back false]
                                  [:sequential back false] [:causal back false] [:causal stale true]
                                  [:atomic stale false]]]
    (is (= [valid? :reglevel] ((juxt :valid? :analyzer) (judged history {:require level} {}))) level))
  (let [{:keys [completed-reads stale registers] :as result} (judged stale {:require :session} {})]
    (is (= [:session 1 1 1] [(:require result) completed-reads stale registers]))
    (is (= #{"regcheck.jsonl" "regcheck.report"} (::left result)))))

(deftest causal-is-of-the-whole
  (let [{:keys [valid? words] :as result} (judged back {:require :causal} {})]
    (is (false? valid?))
    (is (not (contains? result :faulty-registers)))
    (is (str/includes? words "  required: causal, which doesn't hold\n")))
  (let [unsure (doto (java.io.File/createTempFile "reglevel" "") (.deleteOnExit) (.setExecutable true))
        summary "{\"atomic\":\"no\",\"causal\":\"unknown\",\"registers\":0}"
        _ (spit unsure (str "#!/bin/sh\necho '" summary "'\nexit 6\n"))
        {:keys [valid? cause]} (judged back {:require :causal, :reglevel (str unsure)} {})]
    (is (= :unknown valid?))
    (is (str/starts-with? cause "causal is unknown: deciding it would take"))))

(deftest a-level-that-is-not-kept
  (let [{:keys [valid? faulty-registers back words] :as result} (judged back {:require :session} {})]
    (is (= [false 1 1] [valid? faulty-registers back]))
    (is (str/includes? words "  required: session, which doesn't hold of 1 of 1 register: \"x\"\n"))
    (is (str/includes? (::report result) "\"session\":\"no\""))
    (is (= #{"regcheck.jsonl" "regcheck.report" "regcheck.txt" "regcheck.html"} (::left result))))
  (let [{:keys [valid? words]} (judged back {:require :session, :regkit "/nowhere/regkit"} {})]
    (is (false? valid?))
    (is (str/includes? words "/nowhere/regkit could not be run")))
  (is (= #{"regcheck.jsonl" "regcheck.report" "regcheck.txt"}
         (::left (judged back {:require :session, :regcheck "/nowhere/regcheck"
                               :reglevel (programs/reglevel {}), :regkit (programs/regkit {})} {})))))

(deftest a-level-without-a-verdict
  (doseq [[words history opts]
          [["the history keeps session, but no read" (ops [0 :invoke :write 1] [0 :ok :write 1]) {}]
           ["reglevel takes reads and writes of distinct values" (contended :fail) {}]
           ["/nowhere/reglevel could not be run" stale {:reglevel "/nowhere/reglevel"}]
           ["the :f of" (ops [0 :invoke :append 1] [0 :ok :append 1]) {}]]]
    (let [{:keys [valid? analyzer cause]} (judged history (assoc opts :require :session) {})]
      (is (= [:unknown :reglevel] [valid? analyzer]) words)
      (is (str/includes? (str cause) words))))
  (is (thrown-with-msg? IllegalArgumentException #":eventual is no level"
                        (regcheck/checker {:require :eventual}))))

(deftest a-folder-is-no-program
  (let [folder (.toFile (Files/createTempDirectory "regcheck-" (make-array FileAttribute 0)))
        [regcheck regsearch :as files] (map #(io/file folder %) ["regcheck" "regsearch"])]
    (.mkdir regsearch)
    (spit regcheck "#!/bin/sh\nexit 2\n")
    (.setExecutable regcheck true)
    (let [{:keys [valid? cause]} (judged stale {:regcheck (str regcheck)} {})]
      (is (not= true valid?))
      (is (not (str/includes? (str cause) "could not be run"))))
    (run! io/delete-file [regcheck regsearch folder])))

(deftest programs-that-are-not-there
  (let [{:keys [valid? cause]} (judged stale {:regcheck "/nowhere/regcheck"} {})]
    (is (= :unknown valid?))
    (is (str/includes? cause "/nowhere/regcheck could not be run")))
  (let [{:keys [valid? cause]} (judged (contended :ok) {:regsearch "/nowhere/regsearch"} {})]
    (is (= :unknown valid?))
    (is (str/includes? cause "/nowhere/regsearch could not be run")))
  (let [{:keys [valid? words] :as result} (judged stale {:regkit "/nowhere/regkit"} {})]
    (is (false? valid?))
    (is (str/includes? words "/nowhere/regkit could not be run"))
    (is (= #{"regcheck.jsonl" "regcheck.report"} (::left result)))))

(defn -main []
  (let [{:keys [fail error]} (run-tests 'regcheck.checker-test)]
    (shutdown-agents)
    (System/exit (if (zero? (+ fail error)) 0 1))))
