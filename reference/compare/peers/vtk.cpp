// Draws the level sets of `bench grids FOLDER` with VTK's filters, and beside them by the mesh call and the places call, in turn in one process;
// prints a table in Markdown. scripts/speed.sh builds it where VTK is installed. Times are medians of the monotonic clock, of one thread.
//
//     vtk MILLISECONDS FILE..
#include <algorithm>
#include <chrono>
#include <cstdio>
#include <cstdlib>
#include <fstream>
#include <functional>
#include <map>
#include <sstream>
#include <string>
#include <vector>

#include <vtkCellArray.h>
#include <vtkCellType.h>
#include <vtkContour3DLinearGrid.h>
#include <vtkContourGrid.h>
#include <vtkDoubleArray.h>
#include <vtkNew.h>
#include <vtkPointData.h>
#include <vtkPoints.h>
#include <vtkPolyData.h>
#include <vtkUnstructuredGrid.h>

#include "citternblaze.h"

namespace {

using Calls = std::vector<std::function<void()>>;

// The numbers of a file, list by list, by their names.
using Lists = std::map<std::string, std::vector<double>>;

Lists read(const char *file) {
  std::ifstream in(file);
  Lists lists;
  std::string name;
  size_t many;
  while (in >> name >> many) {
    std::vector<double> &numbers = lists[name];
    numbers.resize(many);
    for (double &number : numbers)
      in >> number;
  }
  return lists;
}

template <class T> std::vector<T> as(const std::vector<double> &numbers) {
  return std::vector<T>(numbers.begin(), numbers.end());
}

// A grid as the calls take it, with areas for what they write.
struct Grid {
  std::vector<uint16_t> cells, edges, counts;
  std::vector<uint32_t> starts, words;
  std::vector<double> nodes, fractions, points;
  uint64_t answer[CITTERNBLAZE_ANSWER_WORDS];

  explicit Grid(Lists &lists)
      : cells(as<uint16_t>(lists["cells"])), edges(as<uint16_t>(lists["edges"])),
        counts(as<uint16_t>(lists["counts"])), starts(as<uint32_t>(lists["starts"])),
        words(CITTERNBLAZE_TRIANGLE_WORDS * static_cast<size_t>(lists["room"][0]), 1),
        nodes(lists["nodes"]), fractions(lists["fractions"]), points(3 * fractions.size() + 3 * words.size() / CITTERNBLAZE_TRIANGLE_WORDS, 1) {}

  size_t mesh() {
    citternblaze_mesh(cells.data(), cells.size(), edges.data(), edges.size(), counts.data(), counts.size(), starts.data(), starts.size(),
                      words.data(), words.size(), answer, CITTERNBLAZE_ANSWER_WORDS);
    return answer[0] == CITTERNBLAZE_DONE ? answer[CITTERNBLAZE_AT_TRIANGLES] : 0;
  }

  size_t places() {
    citternblaze_places(cells.data(), cells.size(), edges.data(), edges.size(), counts.data(), counts.size(), starts.data(), starts.size(),
                        nodes.data(), nodes.size(), fractions.data(), fractions.size(), points.data(), points.size(), answer,
                        CITTERNBLAZE_ANSWER_WORDS);
    return answer[0] == CITTERNBLAZE_DONE ? answer[CITTERNBLAZE_AT_POINTS] : 0;
  }
};

// The same cells for VTK, with the heights at the nodes.
void fill(vtkUnstructuredGrid *grid, Lists &lists) {
  vtkNew<vtkPoints> points;
  points->SetDataTypeToDouble();
  const std::vector<double> &nodes = lists["nodes"];
  for (size_t at = 0; at < nodes.size(); at += 3)
    points->InsertNextPoint(nodes[at], nodes[at + 1], nodes[at + 2]);
  vtkNew<vtkCellArray> cells;
  const std::vector<vtkIdType> ids = as<vtkIdType>(lists["cells"]);
  for (size_t at = 0; at < ids.size(); at += 4)
    cells->InsertNextCell(4, &ids[at]);
  vtkNew<vtkDoubleArray> heights;
  for (double height : lists["heights"])
    heights->InsertNextValue(height);
  grid->SetPoints(points);
  grid->SetCells(VTK_TETRA, cells);
  grid->GetPointData()->SetScalars(heights);
}

size_t polygons(vtkDataObject *output) {
  vtkPolyData *drawn = vtkPolyData::SafeDownCast(output);
  return drawn ? drawn->GetNumberOfPolys() : 0;
}

// A filter as both kinds have it: how many triangles it draws at these levels in one pass, or level by level.
template <class Filter> size_t draw(Filter *filter, const std::vector<double> &levels, bool one_pass) {
  if (one_pass) {
    filter->SetNumberOfContours(static_cast<int>(levels.size()));
    for (size_t k = 0; k < levels.size(); k++)
      filter->SetValue(static_cast<int>(k), levels[k]);
    filter->Modified();
    filter->Update();
    return polygons(filter->GetOutput());
  }
  size_t triangles = 0;
  filter->SetNumberOfContours(1);
  for (double level : levels) {
    filter->SetValue(0, level);
    filter->Modified();
    filter->Update();
    triangles += polygons(filter->GetOutput());
  }
  return triangles;
}

// The median microseconds of each call, all in turn.
std::vector<double> medians(double milliseconds, const Calls &calls) {
  using clock = std::chrono::steady_clock;
  std::vector<std::vector<double>> micros(calls.size());
  const auto begin = clock::now();
  for (int round = 0;; round++) {
    const double spent = std::chrono::duration<double, std::milli>(clock::now() - begin).count();
    if ((round >= 15 && spent >= milliseconds) || (round >= 3 && spent >= 4 * milliseconds))
      break;
    for (size_t turn = 0; turn < calls.size(); turn++) {
      const size_t way = round % 2 ? calls.size() - 1 - turn : turn;
      const auto start = clock::now();
      calls[way]();
      micros[way].push_back(std::chrono::duration<double, std::micro>(clock::now() - start).count());
    }
  }
  std::vector<double> result;
  for (auto &all : micros) {
    std::sort(all.begin(), all.end());
    result.push_back(all[all.size() / 2]);
  }
  return result;
}

// A row of the table: the two calls, and how many times as long each filter takes.
void row(double milliseconds, const char *file) {
  Lists lists = read(file);
  Grid ours(lists);
  vtkNew<vtkUnstructuredGrid> theirs;
  fill(theirs, lists);
  const std::vector<double> &levels = lists["levels"];
  vtkNew<vtkContour3DLinearGrid> linear;
  linear->SetInputData(theirs);
  linear->SetSequentialProcessing(true);
  linear->SetMergePoints(true);
  linear->SetInterpolateAttributes(false);
  vtkNew<vtkContourGrid> general;
  general->SetInputData(theirs);
  general->SetComputeScalars(false);
  general->SetComputeNormals(false);
  const size_t drawn[] = {ours.mesh(), draw(linear.Get(), levels, true), draw(general.Get(), levels, true)};
  const Calls calls = {[&] { ours.mesh(), ours.places(); },
                       [&] { draw(linear.Get(), levels, true); },
                       [&] { draw(linear.Get(), levels, false); },
                       [&] { draw(general.Get(), levels, true); },
                       [&] { draw(general.Get(), levels, false); }};
  const std::vector<double> times = medians(milliseconds, calls);
  std::string name(file);
  name = name.substr(name.rfind('/') + 1);
  name = name.substr(0, name.rfind('.'));
  std::printf("| %s | %zu, %zu, %zu | %.0f |", name.c_str(), drawn[0], drawn[1], drawn[2], times[0]);
  for (size_t k = 1; k < times.size(); k++)
    std::printf(" %.2f |", times[0] / times[k]);
  std::printf("\n");
}

} // namespace

int main(int many, char **words) {
  if (many < 3)
    return 2;
  std::printf("| grid | triangles: ours, Contour3DLinearGrid's, ContourGrid's | mesh and places | over Contour3DLinearGrid, all levels at once | one by one | "
              "over ContourGrid, all at once | one by one |\n|---|---|---|---|---|---|---|\n");
  for (int at = 2; at < many; at++)
    row(std::atof(words[1]), words[at]);
  return 0;
}
