--  Two access types have one pool (RM 13.11), and each has a collection of its own. V designates an object of the other one: it may be used,
--  but an instance of Unchecked_Deallocation for the type of V may not free it (RM 13.11.2). The run stops as FOREIGN_FREE.
with Ada.Text_IO; use Ada.Text_IO;
with Ada.Unchecked_Deallocation;
with Block_Pools; use Block_Pools;

procedure Foreign_Free is
   type Point is record
      X, Y : Integer;
   end record;

   Pool : Block_Pool (Block_Size => 16, Block_Count => 2);

   type Link is access Point with Storage_Pool => Pool;
   type View is access all Point with Storage_Pool => Pool;

   procedure Free is new Ada.Unchecked_Deallocation (Point, View);

   A : Link;
   V : View;
begin
   V := new Point;
   Free (V);
   Put_Line ("a view of its own is freed");
   A := new Point;
   V := View (A);
   V.X := 1;
   Put_Line ("X is" & Integer'Image (A.X));
   Free (V);
   Put_Line ("freed");
end Foreign_Free;
