// SPDX-License-Identifier: GPL-2.0
/*
 * A plan of pm_top as a module, written by "pm_lab kernel".
 *
 * It makes the plan's power domains, devices and links, runs the script of each caller on a thread
 * of its own, and tells what came of it. Each step goes into the trace, beside the kernel's own
 * rpm_* events. At the end the answer of each command and the state of each device go into the
 * trace and into the log.
 *
 *	echo 1 >/sys/kernel/tracing/events/rpm/enable
 *	insmod pm_lab.ko
 *	dmesg | grep pm_lab:
 *	cat /sys/kernel/tracing/trace
 */
#define pr_fmt(fmt) "pm_lab: " fmt

#include <linux/atomic.h>
#include <linux/completion.h>
#include <linux/delay.h>
#include <linux/device.h>
#include <linux/hrtimer.h>
#include <linux/jiffies.h>
#include <linux/kernel.h>
#include <linux/kthread.h>
#include <linux/ktime.h>
#include <linux/module.h>
#include <linux/pm_domain.h>
#include <linux/pm_runtime.h>
#include <linux/sched.h>
#include <linux/sched/task.h>
#include <linux/slab.h>
#include <linux/spinlock.h>
#include <linux/version.h>
#include <linux/workqueue.h>

/* The commands of scripts, each by the word that it has in a plan. */
enum lab_helper {
	LAB_END,	/* behind the last command */
	LAB_get_sync,
	LAB_get,
	LAB_get_noresume,
	LAB_get_if_in_use,
	LAB_get_if_active,
	LAB_resume,
	LAB_request_resume,
	LAB_put,
	LAB_put_sync,
	LAB_put_noidle,
	LAB_put_autosuspend,
	LAB_put_sync_suspend,
	LAB_put_sync_autosuspend,
	LAB_idle,
	LAB_request_idle,
	LAB_suspend,
	LAB_autosuspend,
	LAB_request_autosuspend,
	LAB_schedule_suspend,
	LAB_enable,
	LAB_disable,
	LAB_barrier,
	LAB_set_active,
	LAB_set_suspended,
	LAB_allow,
	LAB_forbid,
	LAB_mark_last_busy,
	LAB_use_autosuspend,
	LAB_dont_use_autosuspend,
	LAB_set_autosuspend_delay,
	LAB_delay,
	LAB_ignore_children,
	LAB_link_add,
	LAB_link_del,
};

struct lab_domain {
	const char *name;
	int parent;		/* its place in the table, or -1 */
	bool always_on;
};

#define LAB_NO_MORE	1	/* behind the last code; a code is 0 or below */

struct lab_callback {
	unsigned int ms;	/* how long it takes */
	const int *codes;	/* what it answers in turn, and 0 after the last */
};

struct lab_device {
	const char *name;
	int parent;		/* its place in the table, or -1 */
	int domain;		/* the same */
	bool ignore_children;
	bool no_callbacks;
	bool marks_busy;	/* its callbacks mark it as last busy */
	bool has_idle;
	struct lab_callback idle;
	struct lab_callback suspend;
	struct lab_callback resume;
};

struct lab_link {
	int consumer;
	int supplier;
	bool pm_runtime;
	bool later;		/* made by link_add alone */
};

struct lab_command {
	enum lab_helper helper;
	int device;
	int number;		/* milliseconds, a switch, or the place of a supplier */
	const char *call;
	const char *ret;
};

struct lab_caller {
	const char *name;
	const struct lab_command *script;
};

/* The plan. An empty row ends each table. */

static const struct lab_domain lab_domains[] = {
	{ }
};

static const struct lab_device lab_devices[] = {
	{
		.name = "reg",
		.parent = -1,
		.domain = -1,
		.ignore_children = false,
		.no_callbacks = false,
		.marks_busy = false,
		.has_idle = false,
		.idle = { .ms = 0, .codes = (const int[]){ LAB_NO_MORE } },
		.suspend = { .ms = 0, .codes = (const int[]){ LAB_NO_MORE } },
		.resume = { .ms = 0, .codes = (const int[]){ LAB_NO_MORE } },
	},
	{
		.name = "codec",
		.parent = -1,
		.domain = -1,
		.ignore_children = false,
		.no_callbacks = false,
		.marks_busy = false,
		.has_idle = false,
		.idle = { .ms = 0, .codes = (const int[]){ LAB_NO_MORE } },
		.suspend = { .ms = 0, .codes = (const int[]){ LAB_NO_MORE } },
		.resume = { .ms = 2, .codes = (const int[]){ LAB_NO_MORE } },
	},
	{ }
};

static const struct lab_link lab_links[] = {
	{ .consumer = 1, .supplier = 0, .pm_runtime = true, .later = false },
	{ }
};

static const struct lab_caller lab_callers[] = {
	{
		.name = "sound",
		.script = (const struct lab_command[]){
			{ LAB_enable, 0, 0, "enable reg", "enable reg" },
			{ LAB_enable, 1, 0, "enable codec", "enable codec" },
			{ LAB_get_sync, 1, 0, "get_sync codec", "get_sync codec" },
			{ LAB_delay, 0, 50, "delay 50", "delay" },
			{ LAB_put_sync, 1, 0, "put_sync codec", "put_sync codec" },
			{ }
		},
	},
	{ }
};

#define LAB_ROWS(table)	((int)ARRAY_SIZE(table) - 1)

/* Behind the plan's tables the text is the same in each module. */

struct lab_node {
	struct device dev;
	const struct lab_device *row;
	const int *idle;	/* the codes that are still to be answered */
	const int *suspend;
	const int *resume;
};

struct lab_thread {
	const struct lab_caller *row;
	struct task_struct *task;
	struct completion done;
	unsigned int answered;	/* how many of its commands have returned */
	int *codes;		/* what they answered */
};

static struct generic_pm_domain lab_genpds[ARRAY_SIZE(lab_domains)];
static struct lab_node *lab_nodes[ARRAY_SIZE(lab_devices)];
static struct lab_thread lab_threads[ARRAY_SIZE(lab_callers)];
static bool lab_starts_on[ARRAY_SIZE(lab_domains)];
static int lab_genpd_count;

static bool lab_is_running;	/* callbacks of the set-up are not the plan's */
static atomic_t lab_sleepers = ATOMIC_INIT(0);
static unsigned long lab_last_step;	/* in jiffies */

/* The devices that were not released yet, and one for the module. */
static atomic_t lab_unreleased = ATOMIC_INIT(1);
static DECLARE_COMPLETION(lab_released);

/*
 * trace_printk() puts the name of the function that it stands in before the text. So these names
 * are those of the events.
 */
static noinline __noclone void pm_call(const char *call)
{
	trace_printk("%s\n", call);
}

static noinline __noclone void pm_ret(const char *ret, int code)
{
	trace_printk("%s %d\n", ret, code);
}

static noinline __noclone void pm_begin(const char *device, const char *callback)
{
	trace_printk("%s %s begin\n", device, callback);
}

static noinline __noclone void pm_end(const char *device, const char *callback, int code)
{
	trace_printk("%s %s end %d\n", device, callback, code);
}

static noinline __noclone void pm_domain(const char *domain, const char *state)
{
	trace_printk("%s %s\n", domain, state);
}

static noinline __noclone void pm_lab(const char *line)
{
	trace_printk("%s\n", line);
}

/* Writes a line of the outcome into the trace and into the log. */
static __printf(1, 2) void lab_tell(const char *fmt, ...)
{
	char line[128];
	va_list args;

	va_start(args, fmt);
	vscnprintf(line, sizeof(line), fmt, args);
	va_end(args);
	pm_lab(line);
	pr_info("%s\n", line);
}

static void lab_step(void)
{
	WRITE_ONCE(lab_last_step, jiffies);
}

/* Whether nothing happened for so long, while nobody slept. */
static bool lab_is_stuck(unsigned int seconds)
{
	if (atomic_read(&lab_sleepers))
		lab_step();
	return time_after(jiffies, READ_ONCE(lab_last_step) + seconds * HZ);
}

static void lab_sleep(unsigned int ms)
{
	ktime_t until = ktime_add_ms(ktime_get(), ms);

	if (!ms)
		return;
	atomic_inc(&lab_sleepers);
	do {
		set_current_state(TASK_IDLE);
	} while (schedule_hrtimeout(&until, HRTIMER_MODE_ABS));
	lab_step();
	atomic_dec(&lab_sleepers);
}

static struct lab_node *to_lab_node(const struct device *dev)
{
	return container_of(dev, struct lab_node, dev);
}

static int lab_callback(struct lab_node *node, const char *word,
			const struct lab_callback *row, const int **codes)
{
	int code = **codes;

	if (!READ_ONCE(lab_is_running))
		return 0;
	if (code == LAB_NO_MORE)
		code = 0;
	else
		(*codes)++;
	lab_step();
	pm_begin(node->row->name, word);
	lab_sleep(row->ms);
	if (node->row->marks_busy)
		pm_runtime_mark_last_busy(&node->dev);
	pm_end(node->row->name, word, code);
	return code;
}

static int lab_runtime_idle(struct device *dev)
{
	struct lab_node *node = to_lab_node(dev);

	return lab_callback(node, "idle", &node->row->idle, &node->idle);
}

static int lab_runtime_suspend(struct device *dev)
{
	struct lab_node *node = to_lab_node(dev);

	return lab_callback(node, "suspend", &node->row->suspend, &node->suspend);
}

static int lab_runtime_resume(struct device *dev)
{
	struct lab_node *node = to_lab_node(dev);

	return lab_callback(node, "resume", &node->row->resume, &node->resume);
}

static const struct dev_pm_ops lab_ops_idle = {
	SET_RUNTIME_PM_OPS(lab_runtime_suspend, lab_runtime_resume, lab_runtime_idle)
};

static const struct dev_pm_ops lab_ops = {
	SET_RUNTIME_PM_OPS(lab_runtime_suspend, lab_runtime_resume, NULL)
};

static struct bus_type lab_bus;

static struct device_driver lab_driver_idle = {
	.name = "pm_lab_idle",
	.bus = &lab_bus,
	.owner = THIS_MODULE,
	.pm = &lab_ops_idle,
};

static struct device_driver lab_driver = {
	.name = "pm_lab",
	.bus = &lab_bus,
	.owner = THIS_MODULE,
	.pm = &lab_ops,
};

#if LINUX_VERSION_CODE < KERNEL_VERSION(6, 11, 0)
static int lab_match(struct device *dev, struct device_driver *driver)
#else
static int lab_match(struct device *dev, const struct device_driver *driver)
#endif
{
	return driver == (to_lab_node(dev)->row->has_idle ? &lab_driver_idle : &lab_driver);
}

static struct bus_type lab_bus = {
	.name = "pm_lab",
	.match = lab_match,
};

static int lab_power_on(struct generic_pm_domain *genpd)
{
	if (READ_ONCE(lab_is_running))
		pm_domain(genpd->name, "on");
	return 0;
}

static int lab_power_off(struct generic_pm_domain *genpd)
{
	if (READ_ONCE(lab_is_running))
		pm_domain(genpd->name, "off");
	return 0;
}

/* A domain is static: there is nothing to free. */
static void lab_release_domain(struct device *dev)
{
}

/* A domain starts on where it, or one below it, is always on. Parents stand first. */
static void lab_find_on(void)
{
	int i;

	for (i = LAB_ROWS(lab_domains) - 1; i >= 0; i--) {
		lab_starts_on[i] |= lab_domains[i].always_on;
		if (lab_starts_on[i] && lab_domains[i].parent >= 0)
			lab_starts_on[lab_domains[i].parent] = true;
	}
}

static int lab_add_domain(int place)
{
	const struct lab_domain *row = &lab_domains[place];
	struct generic_pm_domain *genpd = &lab_genpds[place];
	int ret;

	genpd->name = row->name;
	genpd->power_on = lab_power_on;
	genpd->power_off = lab_power_off;
	genpd->dev.release = lab_release_domain;
	if (row->always_on)
		genpd->flags |= GENPD_FLAG_ALWAYS_ON;
	ret = pm_genpd_init(genpd, NULL, !lab_starts_on[place]);
	if (ret)
		return ret;
	if (row->parent >= 0) {
		ret = pm_genpd_add_subdomain(&lab_genpds[row->parent], genpd);
		if (ret)
			pm_genpd_remove(genpd);
	}
	return ret;
}

static int lab_add_domains(void)
{
	int ret;

	lab_find_on();
	while (lab_genpd_count < LAB_ROWS(lab_domains)) {
		ret = lab_add_domain(lab_genpd_count);
		if (ret)
			return ret;
		lab_genpd_count++;
	}
	return 0;
}

static void lab_remove_domains(void)
{
	while (lab_genpd_count > 0) {
		struct generic_pm_domain *genpd = &lab_genpds[--lab_genpd_count];
		int parent = lab_domains[lab_genpd_count].parent;

		if (parent >= 0)
			pm_genpd_remove_subdomain(&lab_genpds[parent], genpd);
		pm_genpd_remove(genpd);
	}
}

static void lab_count_release(void)
{
	if (atomic_dec_and_test(&lab_unreleased))
		complete(&lab_released);
}

static void lab_release(struct device *dev)
{
	kfree(to_lab_node(dev));
	lab_count_release();
}

static int lab_add_device(int place)
{
	const struct lab_device *row = &lab_devices[place];
	struct lab_node *node = kzalloc(sizeof(*node), GFP_KERNEL);
	int ret;

	if (!node)
		return -ENOMEM;
	node->row = row;
	node->idle = row->idle.codes;
	node->suspend = row->suspend.codes;
	node->resume = row->resume.codes;
	device_initialize(&node->dev);
	atomic_inc(&lab_unreleased);
	node->dev.bus = &lab_bus;
	node->dev.release = lab_release;
	/* A root has no parent, not even that of the bus. */
	if (row->parent >= 0)
		node->dev.parent = &lab_nodes[row->parent]->dev;
	if (row->no_callbacks)
		pm_runtime_no_callbacks(&node->dev);
	pm_suspend_ignore_children(&node->dev, row->ignore_children);
	ret = dev_set_name(&node->dev, "%s", row->name);
	if (!ret)
		ret = device_add(&node->dev);
	if (ret) {
		put_device(&node->dev);
		return ret;
	}
	/* A device comes to its domain before it is bound. */
	if (row->domain >= 0) {
		ret = pm_genpd_add_device(&lab_genpds[row->domain], &node->dev);
		if (ret) {
			device_unregister(&node->dev);
			return ret;
		}
	}
	lab_nodes[place] = node;
	return 0;
}

static int lab_add_devices(void)
{
	int i, ret;

	for (i = 0; i < LAB_ROWS(lab_devices); i++) {
		ret = lab_add_device(i);
		if (ret)
			return ret;
	}
	return 0;
}

/* Their links go with the devices. */
static void lab_remove_devices(void)
{
	int i;

	for (i = LAB_ROWS(lab_devices) - 1; i >= 0; i--) {
		struct lab_node *node = lab_nodes[i];

		if (!node)
			continue;
		if (node->row->domain >= 0)
			pm_genpd_remove_device(&node->dev);
		device_unregister(&node->dev);
	}
	/* A link lets go of its devices later. */
	lab_count_release();
	wait_for_completion(&lab_released);
}

static void lab_disable_devices(void)
{
	int i;

	for (i = LAB_ROWS(lab_devices) - 1; i >= 0; i--)
		if (pm_runtime_enabled(&lab_nodes[i]->dev))
			pm_runtime_disable(&lab_nodes[i]->dev);
}

static int lab_bind_devices(void)
{
	int i, ret;

	ret = driver_register(&lab_driver_idle);
	if (ret)
		return ret;
	ret = driver_register(&lab_driver);
	if (ret)
		goto unregister_idle;
	for (i = 0; i < LAB_ROWS(lab_devices); i++) {
		if (!lab_nodes[i]->dev.driver) {
			ret = -ENODEV;
			goto unregister;
		}
	}
	return 0;

unregister:
	driver_unregister(&lab_driver);
unregister_idle:
	driver_unregister(&lab_driver_idle);
	return ret;
}

static void lab_unbind_devices(void)
{
	driver_unregister(&lab_driver);
	driver_unregister(&lab_driver_idle);
}

static bool lab_is_pm_runtime(int consumer, int supplier)
{
	int i;

	for (i = 0; i < LAB_ROWS(lab_links); i++)
		if (lab_links[i].consumer == consumer && lab_links[i].supplier == supplier)
			return lab_links[i].pm_runtime;
	return true;
}

static int lab_add_link(int consumer, int supplier)
{
	u32 flags = DL_FLAG_STATELESS;

	if (lab_is_pm_runtime(consumer, supplier))
		flags |= DL_FLAG_PM_RUNTIME;
	if (!device_link_add(&lab_nodes[consumer]->dev, &lab_nodes[supplier]->dev, flags))
		return -EINVAL;
	return 0;
}

static int lab_add_links(void)
{
	int i, ret;

	for (i = 0; i < LAB_ROWS(lab_links); i++) {
		if (lab_links[i].later)
			continue;
		ret = lab_add_link(lab_links[i].consumer, lab_links[i].supplier);
		if (ret)
			return ret;
	}
	return 0;
}

/* What a helper answers, or 0 where it answers nothing. */
static int lab_run(const struct lab_command *command)
{
	struct lab_node *node = lab_nodes[command->device];
	struct device *dev = node ? &node->dev : NULL;	/* a delay needs none */
	int number = command->number;

	switch (command->helper) {
	case LAB_END:
		break;
	case LAB_get_sync:
		return pm_runtime_get_sync(dev);
	case LAB_get:
		return pm_runtime_get(dev);
	case LAB_get_noresume:
		pm_runtime_get_noresume(dev);
		break;
	case LAB_get_if_in_use:
		return pm_runtime_get_if_in_use(dev);
	case LAB_get_if_active:
#if LINUX_VERSION_CODE < KERNEL_VERSION(6, 9, 0)
		return pm_runtime_get_if_active(dev, true);
#else
		return pm_runtime_get_if_active(dev);
#endif
	case LAB_resume:
		return pm_runtime_resume(dev);
	case LAB_request_resume:
		return pm_request_resume(dev);
	case LAB_put:
		return pm_runtime_put(dev);
	case LAB_put_sync:
		return pm_runtime_put_sync(dev);
	case LAB_put_noidle:
		pm_runtime_put_noidle(dev);
		break;
	case LAB_put_autosuspend:
		return pm_runtime_put_autosuspend(dev);
	case LAB_put_sync_suspend:
		return pm_runtime_put_sync_suspend(dev);
	case LAB_put_sync_autosuspend:
		return pm_runtime_put_sync_autosuspend(dev);
	case LAB_idle:
		return pm_runtime_idle(dev);
	case LAB_request_idle:
		return pm_request_idle(dev);
	case LAB_suspend:
		return pm_runtime_suspend(dev);
	case LAB_autosuspend:
		return pm_runtime_autosuspend(dev);
	case LAB_request_autosuspend:
		return pm_request_autosuspend(dev);
	case LAB_schedule_suspend:
		return pm_schedule_suspend(dev, number);
	case LAB_enable:
		pm_runtime_enable(dev);
		break;
	case LAB_disable:
		pm_runtime_disable(dev);
		break;
	case LAB_barrier:
		return pm_runtime_barrier(dev);
	case LAB_set_active:
		return pm_runtime_set_active(dev);
	case LAB_set_suspended:
		return pm_runtime_set_suspended(dev);
	case LAB_allow:
		pm_runtime_allow(dev);
		break;
	case LAB_forbid:
		pm_runtime_forbid(dev);
		break;
	case LAB_mark_last_busy:
		pm_runtime_mark_last_busy(dev);
		break;
	case LAB_use_autosuspend:
		pm_runtime_use_autosuspend(dev);
		break;
	case LAB_dont_use_autosuspend:
		pm_runtime_dont_use_autosuspend(dev);
		break;
	case LAB_set_autosuspend_delay:
		pm_runtime_set_autosuspend_delay(dev, number);
		break;
	case LAB_delay:
		lab_sleep(number);
		break;
	case LAB_ignore_children:
		pm_suspend_ignore_children(dev, number);
		break;
	case LAB_link_add:
		return lab_add_link(command->device, number);
	case LAB_link_del:
		device_link_remove(dev, &lab_nodes[number]->dev);
		break;
	}
	return 0;
}

static int lab_thread_fn(void *data)
{
	struct lab_thread *thread = data;
	const struct lab_command *command;

	for (command = thread->row->script; command->helper; command++) {
		int code;

		lab_step();
		pm_call(command->call);
		code = lab_run(command);
		pm_ret(command->ret, code);
		lab_step();
		thread->codes[thread->answered] = code;
		smp_store_release(&thread->answered, thread->answered + 1);
	}
	complete(&thread->done);
	return 0;
}

static int lab_add_thread(int place)
{
	struct lab_thread *thread = &lab_threads[place];
	const struct lab_command *command;
	struct task_struct *task;
	size_t count = 0;

	thread->row = &lab_callers[place];
	init_completion(&thread->done);
	for (command = thread->row->script; command->helper; command++)
		count++;
	thread->codes = kcalloc(count, sizeof(*thread->codes), GFP_KERNEL);
	if (!thread->codes)
		return -ENOMEM;
	task = kthread_create(lab_thread_fn, thread, "%s", thread->row->name);
	if (IS_ERR(task))
		return PTR_ERR(task);
	thread->task = get_task_struct(task);
	return 0;
}

static int lab_add_threads(void)
{
	int i, ret;

	for (i = 0; i < LAB_ROWS(lab_callers); i++) {
		ret = lab_add_thread(i);
		if (ret)
			return ret;
	}
	return 0;
}

/* Each has ended, or was never woken. */
static void lab_remove_threads(void)
{
	int i;

	for (i = 0; i < LAB_ROWS(lab_callers); i++) {
		if (lab_threads[i].task) {
			kthread_stop(lab_threads[i].task);
			put_task_struct(lab_threads[i].task);
		}
		kfree(lab_threads[i].codes);
	}
}

static bool lab_thread_ends(struct lab_thread *thread)
{
	while (!wait_for_completion_timeout(&thread->done, HZ))
		if (lab_is_stuck(60))
			return false;
	return true;
}

/* Wakes all callers, and tells whether all came to their ends. */
static bool lab_run_callers(void)
{
	bool all = true;
	int i;

	lab_step();
	for (i = 0; i < LAB_ROWS(lab_callers); i++)
		wake_up_process(lab_threads[i].task);
	for (i = 0; i < LAB_ROWS(lab_callers); i++)
		all &= lab_thread_ends(&lab_threads[i]);
	return all;
}

static bool lab_is_at_rest(struct device *dev)
{
	struct dev_pm_info *power = &dev->power;
	unsigned long flags;
	bool rests;

	spin_lock_irqsave(&power->lock, flags);
	rests = !power->request_pending && !power->timer_expires && !power->idle_notification &&
		(power->runtime_status == RPM_ACTIVE || power->runtime_status == RPM_SUSPENDED);
	spin_unlock_irqrestore(&power->lock, flags);
	return rests;
}

static bool lab_all_rest(void)
{
	int i;

	for (i = 0; i < LAB_ROWS(lab_devices); i++)
		if (!lab_is_at_rest(&lab_nodes[i]->dev))
			return false;
	return true;
}

/*
 * Waits until no request, no timer and no transition is left. A timer may be armed for 1,000
 * seconds, and its slack is a fourth of them.
 */
static bool lab_settle(void)
{
	do {
		while (!lab_all_rest()) {
			if (lab_is_stuck(1500))
				return false;
			msleep(10);
		}
		flush_workqueue(pm_wq);
	} while (!lab_all_rest());
	return true;
}

static const char *lab_status(const struct device *dev)
{
	switch (dev->power.runtime_status) {
	case RPM_ACTIVE:
		return "active";
	case RPM_RESUMING:
		return "resuming";
	case RPM_SUSPENDED:
		return "suspended";
	case RPM_SUSPENDING:
		return "suspending";
	default:
		return "invalid";
	}
}

static void lab_tell_answers(struct lab_thread *thread)
{
	unsigned int answered = smp_load_acquire(&thread->answered);
	unsigned int i;

	for (i = 0; i < answered; i++)
		lab_tell("answer %s %u %d", thread->row->name, i + 1, thread->codes[i]);
	if (thread->row->script[answered].helper)
		lab_tell("hangs %s %u", thread->row->name, answered + 1);
}

static void lab_tell_outcome(void)
{
	int i;

	for (i = 0; i < LAB_ROWS(lab_callers); i++)
		lab_tell_answers(&lab_threads[i]);
	for (i = 0; i < LAB_ROWS(lab_devices); i++) {
		struct device *dev = &lab_nodes[i]->dev;

		lab_tell("end %s %s %d", lab_devices[i].name, lab_status(dev),
			 atomic_read(&dev->power.usage_count));
	}
	lab_tell("done");
}

static void lab_run_plan(void)
{
	bool ends;

	lab_tell("start");
	WRITE_ONCE(lab_is_running, true);
	ends = lab_run_callers() && lab_settle();
	WRITE_ONCE(lab_is_running, false);
	if (!ends) {
		/* Something still runs in this module, and may do so for ever. */
		pr_warn("the plan hangs, and the module stays\n");
		__module_get(THIS_MODULE);
	}
	lab_tell_outcome();
}

static int __init lab_init(void)
{
	int ret;

	ret = subsys_virtual_register(&lab_bus, NULL);
	if (ret)
		return ret;
	ret = lab_add_domains();
	if (ret)
		goto remove_domains;
	ret = lab_add_devices();
	if (ret)
		goto remove_devices;
	ret = lab_bind_devices();
	if (ret)
		goto remove_devices;
	ret = lab_add_links();
	if (ret)
		goto unbind_devices;
	ret = lab_add_threads();
	if (ret)
		goto remove_threads;
	flush_workqueue(pm_wq);
	lab_run_plan();
	return 0;

remove_threads:
	lab_remove_threads();
unbind_devices:
	lab_unbind_devices();
remove_devices:
	lab_remove_devices();
remove_domains:
	lab_remove_domains();
	bus_unregister(&lab_bus);
	pr_err("the plan can't be set up: %d\n", ret);
	return ret;
}

static void __exit lab_exit(void)
{
	lab_remove_threads();
	lab_disable_devices();
	lab_unbind_devices();
	lab_remove_devices();
	lab_remove_domains();
	bus_unregister(&lab_bus);
}

module_init(lab_init);
module_exit(lab_exit);
MODULE_DESCRIPTION("A plan of pm_top");
MODULE_LICENSE("GPL");
