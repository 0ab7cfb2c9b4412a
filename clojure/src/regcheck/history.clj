(ns regcheck.history
  "A history of Jepsen as the lines that regcheck and regsearch read.

  A client is a process with a number; what others do, such as the nemesis, is left out. An :invoke is a call,
  an :ok its reply, and a :fail says that the call had no effect. After an :info nobody knows, so the call
  stays pending. The value of a :cas is [from to]; :create, :replace and :swap have the value that they
  write, and :lock and :unlock their owner. What a :delete or a :swap found stands beside the value, as :found
  or :old. An :expires is called where its value may first expire, by a process that does nothing more.

  What isn't understood is no event: it is thrown, so that the verdict is :unknown and says why."
  (:require [clojure.string :as str]
            [jepsen.independent :as independent]))

(def op-names
  "The functions of Jepsen's register workloads, and of those of key-value stores and locks."
  {:read "read" :write "write" :delete "delete" :swap "swap" :cas "cas" :create "cas" :replace "cas"
   :lock "cas" :unlock "cas" :expires "cas"})

(def conditional
  "Those that take place or don't, and say so."
  #{:cas :create :replace :lock :unlock})

(def least (bigint Long/MIN_VALUE))
(def greatest (bigint Long/MAX_VALUE))

(defn unknown!
  "Throws the reason why there is no verdict."
  [& words]
  (throw (ex-info (apply str words) {::cause true})))

(defn unknown?
  "Whether an exception is such a reason."
  [exception]
  (::cause (ex-data exception)))

(defn quoted
  "A text in JSON."
  [text]
  (let [escape (fn [letter]
                 (if (or (< (int letter) 32) (#{\" \\} letter) (< 126 (int letter)))
                   (format "\\u%04x" (int letter))
                   letter))]
    (str \" (str/join (map escape text)) \")))

(defn- number
  "A value in JSON. Throws unless it is a whole number of 64 bits, or nil."
  [value op]
  (cond (nil? value) "null"
        (and (integer? value) (<= least value greatest)) (str value)
        :else (unknown! "the value " (pr-str value) " of " (pr-str op)
                        " is no whole number of 64 bits: number your values")))

(defn- client-op? [op] (integer? (:process op)))

(defn keyed?
  "Whether the values are those of jepsen.independent, each with its key."
  [history]
  (boolean (some #(independent/tuple? (:value %)) (filter client-op? history))))

(defn register-of
  "The key of an operation, if it has one."
  [{:keys [value]}]
  (when (independent/tuple? value) (key value)))

(defn plain
  "The value of an operation, without its key."
  [{:keys [value]}]
  (if (independent/tuple? value) (val value) value))

(defn- split
  "The register of an operation, and its value without the key."
  [op {:keys [keyed register]}]
  (cond (not keyed) [register (:value op)]
        (independent/tuple? (:value op)) [(pr-str (register-of op)) (plain op)]
        :else (unknown! (pr-str op) " has no key, and other operations have one")))

(defn- who
  "The members that say which client called which node, and when. Jepsen gives the thread after a crash
  another process number, which is larger by the number of threads."
  [{:keys [concurrency nodes]} {:keys [process time]}]
  (let [thread (when (and (integer? concurrency) (pos? concurrency)) (mod process concurrency))
        node (when (and thread (seq nodes)) (nth nodes (mod thread (count nodes))))]
    (str (when thread (str ",\"client\":" (quoted (str "thread-" thread))))
         (when node (str ",\"node\":" (quoted (str node))))
         (when (integer? time) (str ",\"time\":" time)))))

(defn- changed
  "The members that say what a cas asks for and what it writes."
  [value op]
  (when-not (and (sequential? value) (= 2 (count value)) (some? (second value)))
    (unknown! "the value " (pr-str value) " of " (pr-str op) " is no [from to]"))
  (str ",\"from\":" (number (first value) op) ",\"to\":" (number (second value) op)))

(defn- asked
  "The members that say what one of these asks for and what it writes."
  [f value op]
  (when-not (or (= :cas f) (some? value))
    (unknown! (pr-str op) " has no value"))
  (case f
    :cas (changed value op)
    (:create :lock) (str ",\"from\":null,\"to\":" (number value op))
    :replace (str ",\"unless\":null,\"to\":" (number value op))
    (:unlock :expires) (str ",\"from\":" (number value op) ",\"to\":null")))

(defn- found
  "The members that say what a :delete or a :swap found. Only a :delete needn't say it."
  [op value]
  (when-not (or (nil? value) (= :swap (:f op)))
    (unknown! "the value " (pr-str value) " of " (pr-str op) " is none of a :delete: say what it found by "
              ":found or :old"))
  (cond (contains? op :old) (str ",\"old\":" (number (:old op) op))
        (boolean? (:found op)) (str ",\"found\":" (:found op))
        (or (some? (:found op)) (= :swap (:f op)))
        (unknown! (pr-str op) " doesn't say what it found, by :old, or by :found, true or false")))

(defn- missed?
  "Whether a cas that failed tells that the store compared: it found another value, or a key without the
  value asked for."
  [{:keys [error exception]} [from]]
  (let [reason (or error exception)
        word (if (sequential? reason) (first reason) reason)]
    (or (nil? word)
        (contains? #{:precondition-failed "precondition-failed"} word)
        (and (contains? #{:key-does-not-exist "key-does-not-exist"} word) (some? from)))))

(defn- asks-for
  "What an operation asks for and what it writes, as missed? takes it."
  [f value]
  (case f
    :cas value
    :unlock [value nil]
    [nil value]))

(defn- call
  "The members of a call behind its process."
  [op op-name [register value]]
  (str "\"event\":\"call\",\"op\":" (quoted op-name) ",\"register\":" (quoted register)
       (case (:f op)
         (:read :delete) nil
         (:write :swap) (str ",\"value\":" (number value op))
         (asked (:f op) value op))))

(defn- reply
  "The members of a reply behind its process. Of a cas, ok says whether it took place."
  [op op-name [register value] ok]
  (str "\"event\":\"reply\",\"op\":" (quoted op-name) ",\"register\":" (quoted register)
       (case (:f op)
         :read (str ",\"value\":" (number value op))
         :write nil
         (:delete :swap) (found op value)
         :expires (unknown! (pr-str op) ": nobody answers an :expires")
         (str ",\"ok\":" ok))))

(defn- tells?
  "Whether the reply of an operation tells what was there."
  [op]
  (case (:f op)
    :write false
    :delete (boolean (some #(contains? op %) [:found :old]))
    true))

(defn- event
  "What an operation is: its :said, the members behind its process, and whether it :tells something of the
  register's value. Nil if nobody knows how it ended."
  [op {:keys [failed-cas] :as names}]
  (let [op-name (or (op-names (:f op))
                    (unknown! "regcheck doesn't know the :f of " (pr-str op)))
        of (split op names)]
    (case (:type op)
      :invoke {:said (call op op-name of)}
      :ok {:said (reply op op-name of true) :tells (tells? op)}
      :fail (if (and (conditional (:f op)) (= :missed failed-cas) (missed? op (asks-for (:f op) (second of))))
              {:said (reply op op-name of false) :tells true}
              {:said "\"event\":\"fail\""})
      :info nil
      (unknown! "the :type of " (pr-str op) " is none of :invoke, :ok, :fail and :info"))))

(defn events
  "The events of a history, in order: each has its :line, its :op, and whether it :tells something
  of a register's value. The options name the :register, if the values have no keys, and say what
  a :failed-cas is."
  [test history opts]
  (let [names (assoc opts :keyed (keyed? history))]
    (into [] (comp (filter client-op?)
                   (keep (fn [op]
                           (when-let [{:keys [said tells]} (event op names)]
                             {:op op :tells tells
                              :line (str "{\"process\":" (:process op) "," said (who test op) "}\n")}))))
          history)))

(defn operations
  "From the number of the line of each call and of each answer, from 1, to the operation of Jepsen that
  answered, or else that called."
  [events]
  (:known
   (reduce (fn [{:keys [open known]} [line {:keys [op]}]]
             (let [process (:process op)]
               (if (= :invoke (:type op))
                 {:open (assoc open process line) :known (assoc known line op)}
                 {:open (dissoc open process) :known (assoc known (open process) op line op)})))
           {:open {} :known {}}
           (map-indexed (fn [index event] [(inc index) event]) events))))

(defn completed-reads
  "How many reads were answered. A cas that was answered counts as one."
  [events]
  (count (filter :tells events)))
