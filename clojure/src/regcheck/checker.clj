(ns regcheck.checker
  "A checker for Jepsen that says whether registers are linearizable, in the place of
  jepsen.checker/linearizable:

      (require '[regcheck.checker :as regcheck])
      {:checker (regcheck/checker {})}

  It takes the history of one register, or that of many by jepsen.independent, with or without
  jepsen.independent/checker around it. It runs the proved programs: regcheck decides what it accepts, and
  regsearch what else there is, such as cas and repeated values. regkit tells a fault in words and draws it.
  Of a store that promises less, reglevel says whether it keeps a level: {:require :session}."
  (:require [clojure.string :as str]
            [jepsen.checker :as checker]
            [jepsen.store :as store]
            [regcheck.fault :as fault]
            [regcheck.history :as history]
            [regcheck.programs :as programs]
            [regcheck.report :as report]))

(def ^:private most-faults "How many faulty registers a result names." 10)

(defn- files
  "Where the test's store folder has what this checker writes."
  [test check-opts]
  (into {} (for [[what name] {:history "regcheck.jsonl" :report "regcheck.report"
                              :words "regcheck.txt" :page "regcheck.html"}]
             [what (.getCanonicalPath (store/path! test (:subdirectory check-opts) name))])))

(defn- in-words
  "What regkit says of a fault, of a search that gave up, or of a level that isn't kept. tell runs it, and
  draw has the page drawn. Without regkit, why there are no words."
  [{:keys [words page]} tell draw]
  (try (let [told (tell)
             drawn (draw)]
         (when-not (contains? #{false :unknown} (programs/verdicts (:exit told)))
           (history/unknown! (:err told)))
         (spit words (:out told))
         {:words (str/trimr (:out told))
          :files (cond-> {:words words} (zero? (:exit drawn)) (assoc :page page))})
       (catch clojure.lang.ExceptionInfo error
         (if (history/unknown? error) {:words (ex-message error) :files {}} (throw error)))))

(defn- and-words
  "A result with what regkit says of it."
  [result paths tell draw]
  (let [{:keys [words files]} (in-words paths tell draw)]
    (assoc result :words words :files (merge (select-keys paths [:history :report]) files))))

(defn- with-words
  "A result with the explanation, and the page of the report."
  [result opts {:keys [history report page] :as paths}]
  (and-words result paths
             #(apply programs/run (programs/regkit opts) "explain" "--color" "never" history report
                     (programs/bounds opts))
             #(programs/run (programs/regkit opts) "draw" history report "-o" page)))

(defn- drawn-by-regcheck
  "Has the history drawn by a report of regcheck, since one of reglevel has no fault to draw. Without regcheck
  there is no page."
  [opts {:keys [history page]}]
  (try (let [{:keys [out]} (programs/run (programs/regcheck opts) history)]
         (programs/run-in {} out (programs/regkit opts) "draw" history "-" "-o" page))
       (catch clojure.lang.ExceptionInfo error
         (if (history/unknown? error) {:exit 4} (throw error)))))

(defn- not-kept
  "The result of a history that doesn't keep the level. Causal is of all registers together."
  [opts {:keys [history] :as paths} rows]
  (let [level (programs/level opts)
        lacking (filter #(= "no" ((keyword level) %)) (pop rows))]
    (and-words (cond-> {:valid? false} (not= "causal" level) (assoc :faulty-registers (count lacking))) paths
               #(programs/run-in {"REGLEVEL" (programs/reglevel opts)} ""
                                 (programs/regkit opts) "levels" "--color" "never" "--require" level history)
               #(drawn-by-regcheck opts paths))))

(defn- level-unknown
  "The result of a history of which reglevel gave up causal."
  [paths]
  {:valid? :unknown
   :files (select-keys paths [:history :report])
   :cause (str "causal is unknown: deciding it would take more memory or work than reglevel spends. It is "
               "decided for fewer sessions, or a shorter run")})

(defn- no
  "The result of a history that isn't linearizable."
  [opts paths events rows]
  (let [operations (history/operations events)
        faulty (filter :fault rows)
        faults (mapv #(fault/named operations %) (take most-faults faulty))
        op (fault/blamed (first faults))]
    (-> {:valid? false
         :op op
         :previous-ok (fault/previous-ok events op)
         :faulty-registers (count faulty)
         :faults faults}
        (merge (fault/paths operations events (first faulty)))
        (with-words opts paths))))

(defn- gave-up
  "The result of a search that gave up."
  [opts paths rows]
  (let [registers (filter :gave_up rows)
        bounds (sort (set (map #(str ":" (get-in % [:gave_up :bound])) registers)))]
    (-> {:valid? :unknown
         :cause (str "the search gave up on " (count registers) " of the registers: raise the option "
                     (str/join " and " bounds) ", or let fewer operations be open at once")}
        (with-words opts paths))))

(defn- yes
  "The result of a history of which that holds. One in which nothing was read says nothing."
  [paths events what]
  (let [files (select-keys paths [:history :report])
        reads (history/completed-reads events)]
    (if (pos? reads)
      {:valid? true :completed-reads reads :files files}
      {:valid? :unknown :files files
       :cause (str "too little evidence: the history " what ", but no read was completed")})))

(defn- result
  [opts events {:keys [history] :as paths}]
  (spit history (str/join (map :line events)))
  (let [level (programs/level opts)
        {:keys [exit out err analyzer]} ((if level programs/keeps programs/check) opts history)
        verdict (programs/verdicts exit)
        rows (when (some? verdict) (report/rows out))]
    (when rows (spit (:report paths) out))
    (merge {:analyzer analyzer}
           (when level {:require (keyword level)})
           (case verdict
             true (yes paths events (if level (str "keeps " level) "is linearizable"))
             false (if level (not-kept opts paths rows) (no opts paths events rows))
             :unknown (if level (level-unknown paths) (gave-up opts paths rows))
             {:valid? :unknown :cause err :files (select-keys paths [:history])})
           (select-keys (peek rows) [:operations :registers :stale :own :back :inverted :lost :gap]))))

(defn checker
  "A checker of linearizability for registers. Options, none of which is needed:

    :require         a level, in place of being linearizable: :atomic, :regular, :session, :own-writes,
                     :monotonic, :sequential or :causal. reglevel decides, which takes what regcheck takes
    :register        the name of the register of a history without keys; by default that of
                     jepsen.independent's key, or \"x\"
    :failed-cas      what the :fail of a :cas says. By default that it had no effect, and nothing of the
                     value; with :missed that the store compared, and found another value, unless its :error
                     says otherwise
    :steps           where the search of regsearch gives up, in place of 1,000,000,000 steps for a register
    :configurations  the same, in place of 65,536 configurations in one list
    :regcheck        the path of the program regcheck; by default as the variable REGCHECK says, or the one on
                     PATH
    :regsearch       the path of regsearch; by default as REGSEARCH says, the one beside regcheck, or the one
                     on PATH
    :reglevel        the path of reglevel; by default as REGLEVEL says, and so on
    :regkit          the path of regkit; by default as REGKIT says, and so on

  Its result is laid out as that of jepsen.checker/linearizable. It has :valid?, which is true, false or
  :unknown; :cause, the reason of :unknown in a sentence; for false :op, the operation that no order explains,
  :previous-ok, :faults, and :words; :files, by their paths; and :analyzer, the program."
  ([] (checker {}))
  ([opts]
   (programs/level opts) ; a word that is none is thrown here
   (reify checker/Checker
     (check [_ test history check-opts]
       (let [history-key (find check-opts :history-key)
             register (or (:register opts) (if history-key (pr-str (val history-key)) "x"))
             names {:register register :failed-cas (:failed-cas opts)}]
         (try
           (result opts (history/events test history names) (files test check-opts))
           (catch clojure.lang.ExceptionInfo error
             (if (history/unknown? error)
               {:valid? :unknown :analyzer (if (:require opts) :reglevel :regcheck) :cause (ex-message error)}
               (throw error)))))))))
