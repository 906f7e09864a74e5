(ns lincheck.checker-test
  "The adapter over the program that LINCHECK in the environment names, and the code of pages: their paths are the arguments. A page's code calls
  `lincheck`. The last line counts."
  (:require [clojure.edn :as edn]
            [clojure.java.io :as io]
            [clojure.string :as str]
            [clojure.test :refer [are deftest is run-tests testing]]
            [jepsen.checker :as checker]
            [lincheck.checker :as lincheck])
  (:import (clojure.lang MapEntry)
           (java.io File StringWriter)
           (java.lang ProcessHandle)
           (java.util ArrayList HashSet)
           (java.util.stream Stream)))

(def program (System/getenv "LINCHECK"))

;; As jepsen.history has it: it prints itself with a tag in front.
(defrecord Op [index time type process f value])

(defn- events
  "A history of rows [type process f value], and what other entries an event has."
  [& rows]
  (map-indexed (fn [index [type process f value more]] (merge (->Op index (* 1000 index) type process f value) more)) rows))

(defn- tuple [key value] (MapEntry. key value)) ; as jepsen.independent makes them

(defn- checked
  ([opts history] (checked opts history {} {}))
  ([opts history test check-opts] (checker/check (lincheck/linearizable (merge {:kind :register, :command program} opts)) test history check-opts)))

(defn- shell
  "A command that stands for lincheck: in its script $0 is check, explain or draw, and \"$@\" are the words behind it."
  [script]
  {:command ["sh" "-c" script]})

(def stale "The write is done before the read begins, which still finds nothing."
  (events [:invoke 0 :write 1] [:ok 0 :write 1] [:info :nemesis :start {:node "n1"}] [:invoke 1 :read nil] [:ok 1 :read nil]))

(def crashed "The write has crashed, and is read."
  (events [:invoke 0 :write 1] [:info 0 :write 1 {:error :timeout, :exception (ex-info "a timeout" {:at (Object.)})}] [:invoke 3 :read nil] [:ok 3 :read 1]))

(def keyed "Key 0 fails; key 1 has three open writes, more than 8 configurations."
  (events [:invoke 0 :write (tuple 1 1)] [:invoke 1 :write (tuple 1 2)] [:invoke 2 :write (tuple 1 3)] [:invoke 3 :write (tuple 0 1)] [:ok 3 :write (tuple 0 1)]
          [:invoke 3 :read (tuple 0 nil)] [:ok 3 :read (tuple 0 1)] [:invoke 3 :read (tuple 0 nil)] [:ok 3 :read (tuple 0 nil)]))

(defn- written [history]
  (let [file (File/createTempFile "lincheck" ".edn")]
    (try (lincheck/write-history history file) (slurp file) (finally (.delete file)))))

(defn- spelled [value]
  (second (re-find #":value (.*)\}\n" (written [{:process 0, :type :invoke, :f :write, :value value}]))))

(deftest a-no
  (let [found (checked {} stale)]
    (is (= {:valid? false, :status 1, :answer "no prefix 4", :analyzer :lincheck, :events 4}
           (select-keys found [:valid? :status :answer :analyzer :events :key :results :failures])))
    (is (= {:at 3, :line 4, :words "p1 ok read nil"} (select-keys (:event found) [:at :line :words])))
    (is (str/starts-with? (:text found) "no prefix 4\nobject 0 register: p1 read nil, called at event 2, line 3"))))

(deftest a-yes
  (is (= {:valid? true, :status 0, :answer "yes", :analyzer :lincheck, :events 4} (checked {} crashed)))
  (is (true? (:valid? (checked {} [])))))

(deftest kinds
  (are [valid kind rows] (= valid (:valid? (checked {:kind kind} (apply events rows))))
    true  :cas-register [[:invoke 0 :write 1] [:ok 0 :write 1] [:invoke 0 :cas [1 2]] [:ok 0 :cas [1 2]]]
    false "cas-register" [[:invoke 0 :write 1] [:ok 0 :write 1] [:invoke 0 :cas '(3 2)] [:ok 0 :cas '(3 2)]]
    true  :set [[:invoke 0 :add "a"] [:ok 0 :add "a"] [:invoke 0 :read nil] [:ok 0 :read (sorted-set "a")]]
    false :set [[:invoke 0 :add :a] [:ok 0 :add :a] [:invoke 0 :read nil] [:ok 0 :read (HashSet.)]]
    false :fifo [[:invoke 0 :enqueue true] [:ok 0 :enqueue true] [:invoke 0 :dequeue nil] [:ok 0 :dequeue false]]
    false :mutex [[:invoke 0 :acquire nil] [:ok 0 :acquire nil] [:invoke 1 :acquire nil] [:ok 1 :acquire nil]]))

(deftest a-no-outranks-unknown
  (let [found (checked {:keyed true, :budget 8} keyed)]
    (is (= {:valid? false, :key 0, :failures [0], :answer "no prefix 9", :events 9} (select-keys found [:valid? :key :failures :answer :events])))
    (is (= {0 false, 1 :unknown} (into {} (map (juxt key (comp :valid? val))) (:results found))))
    (is (= "undecided at 2" (get-in found [:results 1 :answer])))
    (is (str/starts-with? (:text found) "no prefix 9\nobject 0 register: p3 read nil"))))

(deftest an-unknown-outranks-a-yes
  (let [found (checked {:keyed true, :budget 8} (take 7 keyed))]
    (is (= {:valid? :unknown, :key 1, :failures [], :answer "undecided at 2"} (select-keys found [:valid? :key :failures :answer])))
    (is (= {0 true, 1 :unknown} (into {} (map (juxt key (comp :valid? val))) (:results found))))
    (is (str/includes? (:text found) "object 1 register: more than 8 configurations"))))

(deftest keys-of-all-items
  (let [of-key (fn [read [key process]]
                 (events [:invoke process :write (tuple key 1)] [:ok process :write (tuple key 1)]
                         [:invoke process :read (tuple key nil)] [:ok process :read (tuple key (read key))]))
        found (fn [items wrong] (checked {:keyed true} (mapcat (partial of-key #(when-not (wrong %) 1)) (map vector items (range)))))]
    (let [it (found [true :a/b "a\"é" -1 3] #{-1 3 "a\"é"})]
      (is (= {true true, :a/b true, "a\"é" false, -1 false, 3 false} (into {} (map (juxt key (comp :valid? val))) (:results it))))
      (is (= [[-1 3 "a\"é"] -1 false] ((juxt :failures :key :valid?) it)))
      (is (str/includes? (:text it) "object -1 register")))
    (let [it (found [7 "a\"é\n"] #{"a\"é\n"})]
      (is (= ["a\"é\n"] (:failures it)))
      (is (= "a\"é\n" (:key it)))
      (is (str/starts-with? (:text it) "no prefix 8")))
    (is (= {:valid? true, :results {:a {:valid? true, :status 0, :answer "yes", :kind "register"}}, :failures []}
           (select-keys (found [:a] #{}) [:valid? :results :failures])))))

(deftest no-verdict
  (testing "of a history that isn't well-formed"
    (let [found (checked {:keyed true} (events [:invoke 0 :write [1 1]] [:info 0 :write [1 1]] [:invoke 0 :read [1 nil]]))]
      (is (= {:valid? :unknown, :status 3, :results {}, :failures []} (select-keys found [:valid? :status :results :failures :error])))
      (is (str/includes? (:text found) "a process isn't used again after an :info"))))
  (testing "of an event that isn't read"
    (are [row] (= {:valid? :unknown, :status 4} (select-keys (checked {} (events row)) [:valid? :status :error]))
      [:invoke 0 :increment 1]
      [:invoke nil :read nil]
      [:invoke 0 :write 1.5]
      [:invoke 0 :write (keyword "1 :process 2")])))

(deftest what-does-not-count
  (let [yes "{\"valid?\":true,\"status\":0,\"answer\":\"yes\",\"events\":4,\"objects\":[]}"
        no "{\"valid?\":false,\"status\":1,\"answer\":\"no prefix 4\",\"events\":4,\"objects\":[]}"]
    (are [error opts] (let [found (checked opts stale)] (and (= :unknown (:valid? found)) (nil? (:status found)) (re-find error (:error found))))
      #"Cannot run program" {:command "./not-there"}
      #"status 137" (shell "kill -9 $$")
      #"status 1" (shell "exit 1")
      #"status 127: .*not-there" (shell "exec not-there")
      #"status 1: .*yes" (shell (str "echo '" yes "'; exit 1"))
      #"status 0: .*no prefix" (shell (str "echo '" no "'"))
      #"status 137: .*no prefix" (shell (str "echo '" no "'; kill -9 $$"))
      #"status 0: " (shell (str "printf '%s' '" yes "'"))
      #"status 0: " (shell (str "echo '" (subs yes 0 40) "'"))
      #"status 0: " (shell (str "echo '" yes "'; echo '" no "'"))
      #"status 0: yes" (shell "echo yes")
      #"status 5: .*stack" {:kind :stack}
      #"status 5: " {:budget 0}
      #"status 6: lincheck: cannot open /not/there" (shell "exec \"$LINCHECK\" \"$0\" /not/there")
      #"status 6: " (shell "echo '{\"valid?\":true,\"status\":6}'; exit 6")
      #"no answer in 300 ms" (assoc (shell "exec sleep 60") :timeout-ms 300)))
  (let [children #(.count ^Stream (.children (ProcessHandle/current)))]
    (is (some zero? (repeatedly 100 #(do (Thread/sleep 100) (children)))) "what took too long is stopped"))
  (testing "the explanation: the verdict stands without it"
    (let [found (checked (merge (shell "[ $0 = check ] || kill -9 $$; exec \"$LINCHECK\" \"$0\" \"$@\"") {:keyed true, :budget 8}) keyed)]
      (is (= {:valid? false, :key 0, :failures [0], :answer "no prefix 9", :error "status 137"}
             (select-keys found [:valid? :key :failures :answer :error :text])))))
  (testing "an explanation of another answer"
    (let [found (checked (shell "[ $0 != check ] || exec \"$LINCHECK\" \"$0\" \"$@\"; echo '{\"valid?\":true,\"status\":0,\"text\":\"yes\"}'") stale)]
      (is (= {:valid? false, :status 1, :answer "no prefix 4"} (select-keys found [:valid? :status :answer :text]))))))

(deftest a-kind-is-needed
  (is (thrown? AssertionError (lincheck/linearizable {:keyed true}))))

(deftest at-once
  (is (= [false true false true] (pmap #(:valid? (checked {} %)) [stale crashed stale crashed]))))

(deftest histories
  (let [text (str "{:index 0, :process 0, :type :invoke, :f :write, :value 1}\n{:index 1, :process 0, :type :ok, :f :write, :value 1}\n"
                  "{:index 3, :process 1, :type :invoke, :f :read, :value nil}\n{:index 4, :process 1, :type :ok, :f :read, :value nil}\n")]
    (is (= text (written stale)))
    (is (= text (written (map #(into {} %) stale))))
    (is (= text (binding [*print-length* 1, *print-level* 1, *print-meta* true, *print-dup* true, *print-namespace-maps* true, *print-readably* false]
                  (written (map #(with-meta % {:a 1}) stale))))))
  (is (= "{:index nil, :process 0, :type :info, :f :write, :value nil}\n" (written [{:process 0, :type :info, :f :write, :exception (Exception. "it")}]))))

(deftest values
  (testing "that are read are spelled as they are"
    (let [values [nil true false 0 -1 Long/MAX_VALUE 5N "" "a b" "a\"b\\" "a\nb\tc\u0000" "é" "\ud83d\ude00" "\ud800" "?" ":a" "nil" :a :a/b :true
                  [] [1 nil] '(:a "a") (tuple 1 [2 nil]) #{1 "1" :1} (map inc [1 2]) (int 7)]]
      (is (= values (map (comp edn/read-string spelled) values)))
      (is (apply distinct? (map spelled values))))
    (is (= ["[1 2]" "#{1}"] (map spelled [(ArrayList. [1 2]) (HashSet. [1])]))))
  (testing "that aren't read are symbols"
    (is (every? (comp symbol? edn/read-string spelled)
                [1.5 1/2 2M \a 'a {} {:a 1} (Exception. "it") (int-array 2) (Object.) (random-uuid) (keyword "a b") (keyword "é") (->Op 0 0 0 0 0 0)]))))

(deftest json
  (are [found line] (= found (#'lincheck/read-json line))
    {:a "x:\"\\null\n", :b nil, :c [1 true {:d? "null:"}]} "{\"a\":\"x:\\\"\\\\null\\n\",\"b\":null,\"c\":[1,true,{\"d?\":\"null:\"}]}\n"
    nil "{\"a\":1}"
    nil "{\"a\":1\n"
    nil "{\"a\":[1}\n"
    nil "{\"a\":1}\n{\"a\":1}\n"
    nil "null\n"
    nil ""
    nil nil))

(deftest files-of-the-test
  (let [folder (.toFile (java.nio.file.Files/createTempDirectory "lincheck" (make-array java.nio.file.attribute.FileAttribute 0)))
        in-folder (fn [_ & names] (apply io/file folder (map str (remove nil? (flatten names)))))
        kept (fn [opts history subdirectory]
               (checked opts history {:name "a", :start-time "b"} {:subdirectory subdirectory})
               (into {} (map (juxt #(.getName ^File %) slurp)) (.listFiles ^File (in-folder nil subdirectory))))]
    (try
      (create-ns 'jepsen.store)
      (intern 'jepsen.store 'path! (fn [& words] (doto (apply in-folder words) io/make-parents)))
      (is (= {"lincheck.edn" (written crashed)} (kept {} crashed "yes")))
      (let [files (kept {:keyed true, :budget 8} keyed ["independent" 3])]
        (is (= (written keyed) (files "lincheck.edn")))
        (is (str/starts-with? (files "lincheck.svg") "<svg"))
        (is (str/includes? (files "lincheck.svg") "<title>no prefix 9, object 0 register"))
        (is (= 2 (count files))))
      (is (= #{"lincheck.edn"} (set (keys (kept (shell "[ $0 != draw ] || exit 1; exec \"$LINCHECK\" \"$0\" \"$@\"") stale "undrawn")))))
      (.mkdirs ^File (in-folder nil "full" "lincheck.svg"))
      (is (false? (:valid? (checked {} stale {:name "a", :start-time "b"} {:subdirectory "full"}))) "no picture can be written")
      (.mkdirs ^File (in-folder nil "none" "lincheck.edn"))
      (is (= :unknown (:valid? (checked {} stale {:name "a", :start-time "b"} {:subdirectory "none"}))) "no history can be written")
      (is (false? (:valid? (checked {} stale {:name "a"} {}))) "a test that has no folder")
      (finally
        (remove-ns 'jepsen.store)
        (run! #(.delete ^File %) (reverse (file-seq folder)))))))

(defn- blocks
  "The pairs [code printed] of a page: a block of Clojure, and the block of text behind it, if there is one."
  [page]
  (for [[_ code printed] (re-seq #"(?ms)^```clojure\n(.*?)^```$(?:\n\n```text\n(.*?)^```$)?" (slurp page))] [code printed]))

(deftest pages
  (binding [*ns* (create-ns 'lincheck.page)]
    (refer-clojure)
    (doseq [page *command-line-args*, [code printed] (blocks page)]
      (let [out (StringWriter.)]
        (is (some? (binding [*out* out] (load-string (str code "\n:loaded")))) code)
        (is (= (or printed "") (str out)) code)))))

(let [{:keys [pass fail error]} (run-tests 'lincheck.checker-test)]
  (printf "%d passed, %d failed\n" pass (+ fail error))
  (flush)
  (System/exit (if (zero? (+ fail error)) 0 1)))
