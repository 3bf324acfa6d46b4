--  What a block pool refuses (RM 13.11). Its discriminants are the size of a block, from 8 to 4,096 storage units, and the count of blocks,
--  from 1 to 65,536: others raise Constraint_Error where the pool is declared. A request that is larger than a block raises Storage_Error.
with Ada.Text_IO;             use Ada.Text_IO;
with System.Storage_Elements; use System.Storage_Elements;
with Block_Pools;             use Block_Pools;

procedure Pool_Limits is
   type Pair is record
      First, Second : Integer;
   end record;

   --  96 storage units: eight for each Integer.
   type Table is record
      A, B, C, D, E, F : Pair;
   end record;

   procedure Open (Size, Count : in Storage_Count) is
   begin
      declare
         Pool : Block_Pool (Size, Count);
      begin
         Put_Line ("open");
      end;
   exception
      when Constraint_Error =>
         Put_Line ("no such pool");
   end Open;
begin
   Open (8, 65_536);
   Open (4_096, 1);
   Open (7, 1);
   Open (4_097, 1);
   Open (8, 0);
   Open (8, 65_537);
   declare
      Pool : Block_Pool (Block_Count => 1, Block_Size => 8);

      type Link is access Table with Storage_Pool => Pool;

      A : Link;
   begin
      A := new Table;
      Put_Line ("made");
   exception
      when Storage_Error =>
         Put_Line ("no table: " & Boolean'Image (A = null));
   end;
end Pool_Limits;
