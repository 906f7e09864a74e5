(ns lincheck.checker
  "A Jepsen checker that asks the command lincheck whether a history is linearizable.

    (linearizable {:kind :cas-register})               one object, or as many as jepsen.independent/checker makes
    (linearizable {:kind :cas-register, :keyed true})  values are tuples [key value]: all keys in one run"
  (:require [clojure.edn :as edn]
            [clojure.java.io :as io]
            [clojure.string :as str]
            [jepsen.checker :as checker])
  (:import (java.io File FileNotFoundException IOException Writer)
           (java.util List Set)
           (java.util.concurrent TimeUnit)))

;; The history as lincheck reads it. It isn't printed by print-method, which goes by settings and by what others have made of their types. What is
;; neither nil nor an item nor a collection of these is written as the name of its class: a symbol, which is refused where the value counts.

(defn- escaped
  "The characters of a string as EDN in ASCII: strings that differ are spelled differently, whatever the character set."
  [text]
  (str/escape text #(or (char-escape-string %) (when-not (<= 32 (int %) 126) (format "\\u%04x" (int %))))))

(defn- one-word?
  "Whether a keyword is read as it is spelled; (keyword \"a b\") isn't."
  [word]
  (re-matches #":[!-~&&[^()\[\]{}\";\\,]]+" (str word)))

(declare write-value)

(defn- write-all [^Writer out values]
  (reduce (fn [^String between value] (.write out between) (write-value out value) " ") "" values))

(defn- write-value [^Writer out value]
  (cond
    (nil? value) (.write out "nil")
    (or (integer? value) (boolean? value)) (.write out (str value))
    (and (keyword? value) (one-word? value)) (.write out (str value))
    (string? value) (doto out (.write "\"") (.write ^String (escaped value)) (.write "\""))
    (or (set? value) (instance? Set value)) (doto out (.write "#{") (write-all value) (.write "}"))
    (or (sequential? value) (instance? List value)) (doto out (.write "[") (write-all value) (.write "]"))
    :else (.write out (str/replace (.getName (class value)) #"[^A-Za-z0-9.$_]" "?"))))

(defn- write-event [^Writer out {:keys [index process type f value]}]
  (doto out
    (.write "{:index ") (write-value index)
    (.write ", :process ") (write-value process)
    (.write ", :type ") (write-value type)
    (.write ", :f ") (write-value f)
    (.write ", :value ") (write-value value)
    (.write "}\n")))

(defn write-history
  "Writes the events of the clients, a map a line, with the four entries that lincheck reads and the index in the whole history. Event N stands in
  line N + 1. An event whose process is a keyword, as a nemesis has, is passed over, as lincheck does."
  [history file]
  (with-open [out (io/writer file)]
    (run! #(when-not (keyword? (:process %)) (write-event out %)) history)))

;; What lincheck answers.

(defn- read-json
  "The map in a line of its own that lincheck prints; nil where that isn't what was printed. With keywords for names, and nil for null, it is EDN."
  [printed]
  (when (re-matches #"\{[^\n]*\}\n" (str printed))
    (let [as-edn #(cond (= "null" %) "nil", (str/ends-with? % ":") (str ":" (subs % 1 (- (count %) 2)) " "), :else %)]
      (try
        (edn/read-string (str/replace printed #"\"(?:[^\"\\]++|\\.)*+\":?|null" as-edn))
        (catch RuntimeException _ nil)))))

(defn- run-words
  "Runs a command line with a file as its standard input, and what it prints in two others: its exit status if it ends in time, and their texts."
  [words timeout-ms ^File in ^File out ^File err]
  (let [process (.start (doto (ProcessBuilder. ^List (vec words)) (.redirectInput in) (.redirectOutput out) (.redirectError err)))]
    (try
      (if (.waitFor process timeout-ms TimeUnit/MILLISECONDS)
        {:status (.exitValue process), :out (slurp out), :err (slurp err)}
        {:err (str "no answer in " timeout-ms " ms")})
      (finally (.destroyForcibly process)))))

(defn- run-lincheck
  "Runs a command of lincheck over the history in a file. Without :status it couldn't be run, or took too long."
  [{:keys [command kind keyed budget timeout-ms]} history words]
  (let [words (concat (if (string? command) [command] command) words ["--kind" (name kind)]
                      (when keyed ["--keyed"]) (when budget ["--budget" (str budget)]) ["-"])]
    (try
      (let [out (File/createTempFile "lincheck" ".out"), err (File/createTempFile "lincheck" ".err")]
        (try
          (run-words words timeout-ms history out err)
          (finally (.delete out) (.delete err))))
      (catch IOException e {:err (ex-message e)}))))

(defn- ask
  "The map that lincheck answers. It counts only where its status is the exit status; in place of any other there is an :error, so no verdict."
  [opts history words]
  (let [{:keys [status out err]} (run-lincheck opts history (concat words ["--format" "json"]))
        found (read-json out)]
    (if (and status (<= 0 status 4) (= status (:status found)))
      found
      {:error (->> [(some->> status (str "status ")) err out] (remove str/blank?) (map str/trim) (str/join ": ") (take 2000) (apply str))})))

(defn- judge [found]
  (assoc found :valid? (get {0 true, 1 false} (:status found) :unknown)))

(defn- read-key [text]
  (try (edn/read-string text) (catch RuntimeException _ text)))

(defn- draw
  "Writes the picture of a no, where there is one and it can be written: no verdict is lost for it."
  [opts history words picture]
  (let [{:keys [status out]} (run-lincheck opts history (cons "draw" words))]
    (when (and (= 1 status) (str/starts-with? out "<svg"))
      (try (spit picture out) (catch IOException _ nil)))))

(defn- decide
  "The result for the history in a file. A no outranks what is unknown: the first object that fails speaks for all, and is drawn if there is a file
  for the picture."
  [{:keys [keyed] :as opts} history picture]
  (let [whole (ask opts history ["check"])
        objects (map judge (:objects whole))
        failed (filter (comp false? :valid?) objects)
        found (merge (dissoc whole :objects) (first failed))
        object (when (and keyed (seq failed)) [(str "--key=" (:key found))])
        why (when-not (contains? #{0 nil} (:status found)) (ask opts history (cons "explain" object)))
        result (judge (merge found (if (= (:status found) (:status why)) why (select-keys why [:error]))))]
    (when (and picture (seq failed))
      (draw opts history object picture))
    (cond-> (assoc result :analyzer :lincheck)
      (not keyed) (dissoc :key)
      (and keyed (:key result)) (update :key read-key)
      keyed (assoc :results (into {} (map (juxt (comp read-key :key) #(dissoc % :key))) objects)
                   :failures (mapv (comp read-key :key) failed)))))

(defn- in-store
  "A file in the folder of the test, where Jepsen keeps one; else nil."
  ^File [test {:keys [subdirectory]} file]
  (when (and (:name test) (:start-time test))
    (when-let [path! (try (requiring-resolve 'jepsen.store/path!) (catch FileNotFoundException _ nil))]
      (io/file (path! test subdirectory file)))))

(defn linearizable
  "A checker of whether the history is linearizable, for objects of the :kind :register, :cas-register, :fifo, :unordered-queue, :set or :mutex.
  Other options:

    :keyed       whether each value is a tuple [key value], one object for each key
    :budget      how many configurations are kept for one object
    :command     the path of lincheck, or a vector of words that run it; else \"lincheck\"
    :timeout-ms  for each run; else an hour

  The result has the names that `lincheck explain --format json` prints; :error where lincheck gave no answer; of keyed histories :results by key
  and :failures, the keys of the objects that fail, of which the first is explained. In the test's folder lincheck.edn is the history that was
  read, and lincheck.svg the picture of a no."
  [opts]
  (assert (:kind opts) "linearizable needs the :kind of the objects")
  (let [opts (merge {:command "lincheck", :timeout-ms 3600000} opts)]
    (reify checker/Checker
      (check [_ test history check-opts]
        (let [kept (in-store test check-opts "lincheck.edn")
              file (or kept (File/createTempFile "lincheck" ".edn"))]
          (try
            (write-history history file)
            (decide opts file (when kept (in-store test check-opts "lincheck.svg")))
            (catch IOException e (judge {:analyzer :lincheck, :error (str e)}))
            (finally (when-not kept (.delete file)))))))))
