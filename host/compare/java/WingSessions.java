import com.sun.management.HotSpotDiagnosticMXBean;
import java.lang.management.ManagementFactory;
import java.lang.ref.PhantomReference;
import java.lang.ref.Reference;
import java.lang.ref.ReferenceQueue;
import java.lang.ref.SoftReference;
import java.lang.ref.WeakReference;
import java.util.ArrayList;
import java.util.HashMap;
import java.util.LinkedHashMap;
import java.util.List;
import java.util.Map;
import java.util.Random;
import java.util.TreeMap;
import java.util.WeakHashMap;

/**
 * A host for the lights of a theatre's wings: it keeps sessions in lists, maps and arrays, with weak, soft and phantom references beside
 * strong ones, and writes a heap dump of itself. With the same seed it makes the same sessions.
 *
 *     java WingSessions.java OUT.hprof
 */
public final class WingSessions {
    private static final int SESSIONS = 4_500;
    private static final int CHANNELS = 96;

    /** A lamp with its level; sessions share lamps. */
    static class Lamp {
        final String name;
        int level;
        Lamp twin;

        Lamp(String name) {
            this.name = name;
        }
    }

    /** A lamp of a kind of its own, so that fields come from two classes of one chain. */
    static final class MovingLamp extends Lamp {
        final double[] path = new double[4];
        Object gel;

        MovingLamp(String name) {
            super(name);
        }
    }

    /** What one wing plays: cues in order, lamps by channel, and what it only watches. */
    static final class Session {
        final int number;
        final String wing;
        final List<Lamp> cues = new ArrayList<>();
        final Map<String, Lamp> byName = new HashMap<>();
        final Lamp[] channels = new Lamp[CHANNELS];
        final Reference<Session> previous;
        SoftReference<byte[]> preview;
        Session partner;

        Session(int number, String wing, Session previous) {
            this.number = number;
            this.wing = wing;
            this.previous = previous == null ? null : new WeakReference<>(previous);
        }
    }

    /** A weak reference with a field of its own, as caches have them. */
    static final class Watched extends WeakReference<Lamp> {
        final Session by;

        Watched(Lamp lamp, Session by, ReferenceQueue<Lamp> queue) {
            super(lamp, queue);
            this.by = by;
        }
    }

    static final List<Session> PLAYING = new ArrayList<>();
    static final Map<Integer, Session> BY_NUMBER = new TreeMap<>();
    static final Map<Lamp, Session> LAST_USE = new WeakHashMap<>();
    static final List<Watched> WATCHED = new ArrayList<>();
    static final List<PhantomReference<Session>> CLOSED = new ArrayList<>();
    static final ReferenceQueue<Lamp> LAMPS_GONE = new ReferenceQueue<>();
    static final ReferenceQueue<Session> SESSIONS_GONE = new ReferenceQueue<>();
    static Lamp[][] grid;
    /** Long and mostly empty: its few lamps stand far apart. */
    static final Object[] PATCH = new Object[140_000];
    static Session newest;
    static final int VERSION = 3;
    static final double DIMMING = 0.75;

    private static Lamp lamp(Random random, int at) {
        Lamp lamp = at % 5 == 0 ? new MovingLamp("lamp " + at) : new Lamp("lamp " + at);
        lamp.level = random.nextInt(256);
        return lamp;
    }

    private static Session session(Random random, int number, Lamp[] lamps) {
        Session session = new Session(number, number % 2 == 0 ? "left" : "right", newest);
        int cues = random.nextInt(12);
        for (int cue = 0; cue < cues; cue++) {
            Lamp lamp = lamps[random.nextInt(lamps.length)];
            session.cues.add(lamp);
            session.byName.put(lamp.name, lamp);
            session.channels[random.nextInt(CHANNELS)] = lamp;
            LAST_USE.put(lamp, session);
        }
        if (number % 3 == 0) {
            session.preview = new SoftReference<>(new byte[random.nextInt(64)]);
        }
        if (cues > 0 && number % 4 == 0) {
            WATCHED.add(new Watched(session.cues.get(0), session, LAMPS_GONE));
        }
        if (number % 7 == 0) {
            CLOSED.add(new PhantomReference<>(session, SESSIONS_GONE));
        }
        return session;
    }

    public static void main(String[] words) throws Exception {
        Random random = new Random(17);
        Lamp[] lamps = new Lamp[2_000];
        for (int at = 0; at < lamps.length; at++) {
            lamps[at] = lamp(random, at);
            lamps[at].twin = at % 3 == 0 ? lamps[at] : lamps[random.nextInt(at + 1)];
        }
        for (int number = 0; number < SESSIONS; number++) {
            Session session = session(random, number, lamps);
            session.partner = newest;
            newest = session;
            PLAYING.add(session);
            BY_NUMBER.put(number, session);
        }
        grid = new Lamp[][] {lamps, new Lamp[40_000], {lamps[0], null, lamps[1]}, {}};
        grid[1][39_999] = lamps[7];
        for (int at : new int[] {0, 1, 32_768, 65_536, 65_537, 98_306, 139_999}) {
            PATCH[at] = at % 2 == 0 ? lamps[at % lamps.length] : PLAYING;
        }
        Map<Object, Object> mixed = new LinkedHashMap<>();
        mixed.put("grid", grid);
        mixed.put(PLAYING, WATCHED);
        PLAYING.get(0).channels[0] = null;
        ManagementFactory.getPlatformMXBean(HotSpotDiagnosticMXBean.class).dumpHeap(words[0], true);
        System.out.println(PLAYING.size() + " sessions kept, " + WATCHED.size() + " lamps watched, " + mixed.size() + " mixed");
    }
}
