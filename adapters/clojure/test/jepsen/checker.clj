(ns jepsen.checker "Stands in for Jepsen, of which the adapter needs this protocol alone.")
(defprotocol Checker (check [checker test history opts]))
