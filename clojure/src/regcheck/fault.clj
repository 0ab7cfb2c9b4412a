(ns regcheck.fault
  "Faults with the operations of Jepsen in the place of their lines, and what Knossos would say of them."
  (:require [regcheck.history :as history]))

(def ^:private most-steps "How many operations of a path are named." 10)

(defn named
  "The fault of a row of a report, from the operations by their lines. The initial write is no operation."
  [operations {:keys [fault]}]
  (let [lines (dissoc fault :kind)
        of (fn [line] (if (sequential? line) (mapv operations line) (operations line)))]
    (assoc (update-vals lines of) :kind (keyword (:kind fault)))))

(defn blamed
  "The operation whose answer no order gives, or else the one of a fault's operations that was answered last."
  [{:keys [reply] :as fault}]
  (or reply (apply max-key #(or (:index %) 0) (filter some? (flatten (vals (dissoc fault :kind)))))))

(defn- same-register? [one other]
  (= (history/register-of one) (history/register-of other)))

(defn previous-ok
  "The operation of the same register that was the last one to be :ok before."
  [events op]
  (last (filter #(and (= :ok (:type %)) (same-register? op %))
                (take-while #(not (identical? op %)) (map :op events)))))

(defn- after
  "What the register holds after an operation that took effect while it held a value."
  [held op]
  (let [value (history/plain op)]
    (if (= :fail (:type op))
      held
      (case (:f op)
        :read held
        :cas (second value)
        (:delete :unlock :expires) nil
        value))))

(defn paths
  "Knossos' :final-paths and :configs, of a fault that has an order of what was known until its reply: the end
  of that order with the values of the register, and what there was then."
  [operations events {{:keys [asks before reply]} :fault}]
  (when before
    (let [op (operations reply)
          path (map operations before)
          values (reductions after nil path)
          steps (map (fn [op value] {:op op :model {:value value}}) path (rest values))
          pending (mapv #(:op (nth events (dec %))) (remove (set before) asks))]
      {:final-paths [(conj (vec (take-last most-steps steps))
                           {:op op :model {:msg "no order gives this answer"}})]
       :configs [{:model {:value (last values)} :last-op (last path) :pending pending}]})))
