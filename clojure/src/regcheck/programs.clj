(ns regcheck.programs
  "Runs the programs regcheck, regsearch, reglevel and regkit."
  (:require [clojure.java.io :as io]
            [clojure.java.shell :as shell]
            [clojure.string :as str]
            [regcheck.history :refer [unknown!]])
  (:import (java.io File IOException)))

(def verdicts
  "What :valid? is, by the exit status of regcheck, of regsearch, of reglevel, and of `regkit explain` and
  `regkit levels`."
  {0 true, 1 false, 6 :unknown})

(def ^:private refused "Their exit status for what isn't a history to them." 2)

(defn- named
  "The path that is given, or the one in the variable; else nil."
  [given variable]
  (or given (not-empty (System/getenv variable))))

(defn- program-in
  "The path of the program in a folder, if it is there; else nil. A folder of its name is none."
  [folder program]
  (let [^File place (io/file folder program)]
    (when (and (.isFile place) (.canExecute place)) (str place))))

(defn- on-path
  "The path of the program on PATH; else nil."
  [program]
  (some #(program-in % program) (str/split (or (System/getenv "PATH") "") #":")))

(defn- missing! [variable program]
  (unknown! program " was not found: put it on PATH, or set " variable " to its path"))

(defn regcheck
  "The path of regcheck."
  [opts]
  (or (named (:regcheck opts) "REGCHECK")
      (on-path "regcheck")
      (missing! "REGCHECK" "regcheck")))

(defn- companion
  "The path of a program: the one that is named, the one beside regcheck, as a release has it,
  or that on PATH."
  [opts given variable program]
  (or (named given variable)
      (program-in (.getParentFile (.getAbsoluteFile (io/file (regcheck opts)))) program)
      (on-path program)
      (missing! variable program)))

(defn regsearch
  "The path of regsearch."
  [opts]
  (companion opts (:regsearch opts) "REGSEARCH" "regsearch"))

(defn reglevel
  "The path of reglevel."
  [opts]
  (companion opts (:reglevel opts) "REGLEVEL" "reglevel"))

(defn regkit
  "The path of regkit."
  [opts]
  (companion opts (:regkit opts) "REGKIT" "regkit"))

(defn bounds
  "The options of regsearch."
  [opts]
  (mapcat (fn [[option most]] (when most [option most]))
          {"--steps" (:steps opts) "--configurations" (:configurations opts)}))

(defn run-in
  "The :exit status, and what the program wrote to :out and :err. It gets more variables, and reads a text."
  [variables in program & words]
  (try (update (apply shell/sh program
                      (concat (map str words) [:env (merge (into {} (System/getenv)) variables) :in in]))
               :err str/trim-newline)
       (catch IOException error
         (unknown! program " could not be run: " (ex-message error)))))

(defn run
  "The same of a program that needs neither."
  [program & words]
  (apply run-in {} "" program words))

(defn- must-search
  "The path of regsearch. Without it, why there is no verdict on what regcheck refused in these words."
  [opts words]
  (try (regsearch opts)
       (catch clojure.lang.ExceptionInfo error
         (unknown! words "; repeated values and cas need regsearch, but " (ex-message error)))))

(defn check
  "What regcheck says of a history, or of what it refuses, such as cas and repeated values, regsearch. The
  :analyzer is the program."
  [opts history]
  (let [{:keys [exit err] :as ran} (run (regcheck opts) history)]
    (if (= refused exit)
      (let [words (concat (bounds opts) [history])]
        (assoc (apply run (must-search opts err) words) :analyzer :regsearch))
      (assoc ran :analyzer :regcheck))))

(def levels
  "The words for the levels, which are the keys of the report too."
  #{"atomic" "regular" "session" "own_writes" "monotonic" "sequential" "causal"})

(defn level
  "The word for the level that is required, if one is. Throws if there is no such level."
  [{level :require}]
  (when (some? level)
    (let [word (str/replace (name level) "-" "_")]
      (when-not (levels word)
        (throw (IllegalArgumentException.
                (str level " is no level: it is one of " (str/join ", " (sort levels))))))
      word)))

(defn keeps
  "What reglevel says of a history and the level that is required."
  [opts history]
  (let [{:keys [exit] :as ran} (run (reglevel opts) "--stale" "--require" (level opts) history)]
    (cond-> (assoc ran :analyzer :reglevel)
      (= refused exit) (update :err str "; reglevel takes reads and writes of distinct values"))))
