(ns jepsen.checker
  "Stands in for Jepsen's namespace in the tests: its protocol, and what the example in README.md
  takes beside it.")

(defprotocol Checker
  (check [checker test history opts]))

(defn compose [checkers] checkers)

(defn stats [] nil)
