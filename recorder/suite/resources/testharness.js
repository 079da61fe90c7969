// A small stand-in for the harness of the web-platform-tests: functions of the same names, as far as
// the pages here use them. When all tests have ended, `suiteResults.done` is true.
(() => {
  const suite = {done: false, results: [], rejections: 0, errors: 0};
  let open = 0, isLoaded = false, isExplicit = false, queue = Promise.resolve();

  addEventListener('unhandledrejection', () => { suite.rejections++; });
  addEventListener('error', () => { suite.errors++; });

  // Rejections that nobody handles are told in a later turn.
  function look() {
    if (open || !isLoaded || isExplicit) return;
    setTimeout(() => { if (!open && !isExplicit) suite.done = true; }, 100);
  }

  function note(name, fault) {
    const message = fault === undefined ? '' : String(fault && fault.message || fault);
    suite.results.push([name, fault === undefined ? 'PASS' : 'FAIL', message]);
    open--;
    look();
  }

  class Test {
    constructor(name) {
      this.name = name;
      this.isOver = false;
      this.cleanups = [];
      open++;
    }

    end(fault) {
      if (this.isOver) return;
      this.isOver = true;
      for (const cleanup of this.cleanups) cleanup();
      note(this.name, fault);
    }

    step(action, that, ...args) {
      try {
        return action.apply(that ?? this, args);
      } catch (fault) {
        this.end(fault);
      }
    }

    step_func(action) {
      return (...args) => this.step(action, this, ...args);
    }

    step_func_done(action = () => {}) {
      return (...args) => {
        this.step(action, this, ...args);
        this.done();
      };
    }

    unreached_func(text) {
      return () => this.end(new Error(`not to be reached: ${text}`));
    }

    step_timeout(action, milliseconds, ...args) {
      return setTimeout(this.step_func(action), milliseconds, ...args);
    }

    add_cleanup(action) {
      this.cleanups.push(action);
    }

    done() {
      this.end();
    }
  }

  function fail(text, description) {
    throw new Error(description ? `${description}: ${text}` : text);
  }

  const shown = value => typeof value === 'string' ? JSON.stringify(value)
    : Object.is(value, -0) ? '-0' : typeof value === 'function' ? value.name : String(value);

  function rightDom(fault, name) {
    if (!(fault instanceof DOMException)) fail(`threw ${shown(fault)}, which is no DOMException`);
    if (fault.name !== name) fail(`threw ${fault.name} for ${name}`);
  }

  function rightJs(fault, constructor) {
    if (typeof fault !== 'object' || fault.constructor !== constructor)
      fail(`threw ${shown(fault)} for ${constructor.name}`);
  }

  function thrownBy(action, description) {
    try {
      action();
    } catch (fault) {
      return fault;
    }
    fail('did not throw', description);
  }

  async function rejectionOf(promise, description) {
    try {
      await promise;
    } catch (fault) {
      return fault;
    }
    fail('did not reject', description);
  }

  Object.assign(globalThis, {
    suiteResults: suite,

    setup(action, options) {
      if (typeof action === 'function') action();
      isExplicit = Boolean((options || action).explicit_done);
    },
    done() {
      isExplicit = false;
      look();
    },

    test(action, name) {
      const made = new Test(name);
      made.step(action, made, made);
      made.done();
    },
    async_test(action, name) {
      const made = new Test(typeof action === 'string' ? action : name);
      if (typeof action === 'function') made.step(action, made, made);
      return made;
    },
    promise_test(action, name) {
      const made = new Test(name);
      queue = queue.then(() => action(made)).then(() => made.done(), fault => made.end(fault));
    },

    assert_true(value, description) {
      if (value !== true) fail(`${shown(value)} for true`, description);
    },
    assert_false(value, description) {
      if (value !== false) fail(`${shown(value)} for false`, description);
    },
    assert_equals(value, wanted, description) {
      if (!Object.is(value, wanted)) fail(`${shown(value)} for ${shown(wanted)}`, description);
    },
    assert_not_equals(value, unwanted, description) {
      if (Object.is(value, unwanted)) fail(`${shown(value)} is not wanted`, description);
    },
    assert_in_array(value, values, description) {
      if (!values.includes(value)) fail(`${shown(value)} is none of ${values}`, description);
    },
    assert_greater_than(value, least, description) {
      if (!(value > least)) fail(`${value} is not above ${least}`, description);
    },
    assert_less_than(value, most, description) {
      if (!(value < most)) fail(`${value} is not below ${most}`, description);
    },
    assert_approx_equals(value, wanted, most, description) {
      if (!(Math.abs(value - wanted) <= most)) fail(`${value} for ${wanted}`, description);
    },
    assert_array_equals(values, wanted, description) {
      assert_equals(values.length, wanted.length, description);
      wanted.forEach((each, place) => assert_equals(values[place], each, `${description ?? ''}[${place}]`));
    },
    assert_array_approx_equals(values, wanted, most, description) {
      assert_equals(values.length, wanted.length, description);
      wanted.forEach((each, place) =>
        assert_approx_equals(values[place], each, most, `${description ?? ''}[${place}]`));
    },
    assert_class_string(object, name, description) {
      assert_equals(Object.prototype.toString.call(object), `[object ${name}]`, description);
    },
    assert_own_property(object, name, description) {
      if (!Object.hasOwn(object, name)) fail(`it has no property ${name}`, description);
    },
    assert_throws_dom(name, action, description) {
      rightDom(thrownBy(action, description), name);
    },
    assert_throws_js(constructor, action, description) {
      rightJs(thrownBy(action, description), constructor);
    },
    assert_throws_exactly(wanted, action, description) {
      assert_equals(thrownBy(action, description), wanted, description);
    },
    async promise_rejects_dom(_, name, promise, description) {
      rightDom(await rejectionOf(promise, description), name);
    },
    async promise_rejects_js(_, constructor, promise, description) {
      rightJs(await rejectionOf(promise, description), constructor);
    },
    assert_unreached(description) {
      fail('not to be reached', description);
    },
  });

  addEventListener('load', () => {
    isLoaded = true;
    look();
  });
})();
