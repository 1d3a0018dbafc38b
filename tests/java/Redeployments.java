import java.io.IOException;
import java.lang.invoke.MethodHandles;
import java.lang.module.ModuleFinder;
import java.lang.module.ModuleReader;
import java.lang.reflect.Method;
import java.nio.file.Files;
import java.nio.file.Path;
import java.util.ArrayList;
import java.util.List;

/**
 * A server that deploys its modules again and again: java Redeployments FOLDER CLASSES ROUNDS MODULES LEAKS
 *
 * FOLDER has the class files of the package "module". The server itself begins with so many classes of java.base. Each
 * round loads the modules anew, each by a loader of its own, runs them, and drops those of the round before, but for LEAKS of
 * them. After every second round, and at the end, it asks for a collection.
 */
public final class Redeployments {
    /** Loads the classes of a module itself, and all others by its parent. */
    private static final class ModuleLoader extends ClassLoader {
        private final Path folder;

        ModuleLoader(String name, Path folder) {
            super(name, Redeployments.class.getClassLoader());
            this.folder = folder;
        }

        @Override
        protected Class<?> loadClass(String name, boolean resolve) throws ClassNotFoundException {
            synchronized (getClassLoadingLock(name)) {
                if (!name.startsWith("module.") || findLoadedClass(name) != null) {
                    return super.loadClass(name, resolve);
                }
                byte[] bytes = bytesOf(name);
                return defineClass(name, bytes, 0, bytes.length);
            }
        }

        byte[] bytesOf(String name) throws ClassNotFoundException {
            try {
                return Files.readAllBytes(folder.resolve(name.replace('.', '/') + ".class"));
            } catch (IOException missing) {
                throw new ClassNotFoundException(name, missing);
            }
        }

        /** Defines a class a second time, which the JVM refuses: what it had read of it becomes free blocks. */
        void defineAgain(String name) throws ClassNotFoundException {
            byte[] bytes = bytesOf(name);
            try {
                defineClass(name, bytes, 0, bytes.length);
            } catch (LinkageError duplicate) {
                return;
            }
            throw new AssertionError(name);
        }
    }

    private static final int CALLS_UNTIL_REFLECTION_IS_COMPILED = 20;
    private static final int HIDDEN_CLASSES = 4;
    private static final List<Object> leaked = new ArrayList<>();
    private static final List<Object> deployed = new ArrayList<>();

    public static void main(String[] words) throws Exception {
        Path folder = Path.of(words[0]);
        int rounds = Integer.parseInt(words[2]), modules = Integer.parseInt(words[3]), leaks = Integer.parseInt(words[4]);
        begin(Integer.parseInt(words[1]));
        for (int round = 1; round <= rounds; round++) {
            deployed.clear();
            for (int module = 0; module < modules; module++) {
                Object instance = deploy(new ModuleLoader("round " + round + " module " + module, folder), round);
                (module < leaks ? leaked : deployed).add(instance);
            }
            if (round % 2 == 0) {
                System.gc();
            }
        }
        deployed.clear();
        System.gc();
        System.out.println(leaked.size() + " modules leak");
    }

    /** Loads so many classes, and initializes none. */
    private static void begin(int classes) throws Exception {
        ClassLoader loader = Redeployments.class.getClassLoader();
        try (ModuleReader base = ModuleFinder.ofSystem().find("java.base").orElseThrow().open()) {
            for (String file : base.list().filter(name -> name.matches(".+/.+[.]class")).sorted().limit(classes).toList()) {
                Class.forName(file.substring(0, file.length() - ".class".length()).replace('/', '.'), false, loader);
            }
        }
    }

    private static Object deploy(ModuleLoader loader, int round) throws Exception {
        Class<?> type = loader.loadClass("module.Module");
        Object instance = type.getConstructor().newInstance();
        Method run = type.getMethod("run", int.class);
        for (int call = 0; call < CALLS_UNTIL_REFLECTION_IS_COMPILED; call++) {
            run.invoke(instance, round);
        }
        loader.defineAgain("module.Hidden");
        MethodHandles.Lookup lookup = (MethodHandles.Lookup) type.getMethod("lookup").invoke(instance);
        byte[] hidden = loader.bytesOf("module.Hidden");
        for (int number = 0; number < HIDDEN_CLASSES; number++) {
            lookup.defineHiddenClass(hidden, true);
        }
        return instance;
    }
}
