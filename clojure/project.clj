(defproject org.example/regcheck "1.2.0"
  :description "Says whether registers are linearizable, by proved checkers: a checker for Jepsen"
  :source-paths ["src"]
  :test-paths [])
