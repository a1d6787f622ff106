/* A program that loads plugins: host PLUGIN.. */
#include <dlfcn.h>
#include <stdint.h>
#include <stdio.h>

int main(int count, char **words) {
  for (int i = 1; i < count; i++) {
    void *plugin = dlopen(words[i], RTLD_NOW | RTLD_LOCAL);
    if (plugin == NULL) {
      fprintf(stderr, "%s\n", dlerror());
      return 1;
    }
    uint32_t (*grants)(uint32_t) = (uint32_t (*)(uint32_t))dlsym(plugin, "plugin_grants");
    uint32_t granted = grants == NULL ? 0 : grants(40 + (uint32_t)i);
    printf("plugin %d granted %u\n", i, granted);
    dlclose(plugin);
  }
  return 0;
}
