#!/usr/bin/env bash
# Measures what the Jepsen checker of adapters/clojure takes beside the check itself: processor seconds of the Java machine, the least of three
# rounds, in which it writes a history of records, as jepsen.history has them, and for the whole check, which reads the answer too. The history has
# ten clients on 100 registers, each value a tuple. Debian's package clojure has to be there; LINCHECK may name another program.
# usage: bench/clojure.sh [EVENTS]   (default 1000000)
set -eu
here=$(cd "$(dirname "$0")" && pwd)
export LINCHECK=${LINCHECK:-$here/../lincheck}
"$LINCHECK" --help > /dev/null
cd "$here/../adapters/clojure"
java -cp /usr/share/java/clojure.jar:src:test clojure.main - "${1:-1000000}" << 'END'
(require '[jepsen.checker :as checker] '[lincheck.checker :as lincheck])
(defrecord Op [index time type process f value])
(let [events  (parse-long (first *command-line-args*))
      history (vec (for [i (range events), :let [operation (quot i 2), key (mod operation 100), writes? (even? (quot operation 100))]]
                     (->Op i (* 1000 i) (if (even? i) :invoke :ok) (mod operation 10) (if writes? :write :read)
                           (clojure.lang.MapEntry. key (when (or writes? (odd? i)) (quot operation 200))))))
      system  (java.lang.management.ManagementFactory/getOperatingSystemMXBean)
      seconds (fn [run] (apply min (repeatedly 3 #(let [begin (.getProcessCpuTime system)] (run) (/ (- (.getProcessCpuTime system) begin) 1e9)))))
      file    (java.io.File/createTempFile "lincheck" ".edn")
      judge   (lincheck/linearizable {:kind :register, :keyed true, :command (System/getenv "LINCHECK")})
      found   (atom nil)]
  (printf "%d events written: %.2f s\n" events (seconds #(lincheck/write-history history file)))
  (.delete file)
  (printf "%d events checked: %.2f s" events (seconds #(reset! found (checker/check judge {} history {}))))
  (println ", the answer" (:valid? @found) "for" (count (:results @found)) "keys"))
END
