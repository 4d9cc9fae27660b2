// What runs beside the page: it has the module, and answers one request after the other.
import { Instance } from "./module.js";
import { callOf } from "./words.js";

let instance = null;

onmessage = ({ data: { module, id, words, texts } }) => {
  if (module) {
    instance = new Instance(module);
    return;
  }
  try {
    const { name, values } = callOf(words, texts);
    const answer = instance.call(name, values);
    postMessage({ id, answer }, [answer.out.buffer]);
  } catch (error) {
    postMessage({ id, failed: String(error) });
  }
};
