--  A node whose Finalize frees the node itself. It is being finalized by then, and to free it once more is erroneous (RM 13.11.2): the run
--  stops as FREE_WHILE_FINALIZING.
with Ada.Finalization; use Ada.Finalization;
with Ada.Text_IO;      use Ada.Text_IO;
with Ada.Unchecked_Deallocation;
with Block_Pools;      use Block_Pools;

procedure Self_Free is
   Pool : Block_Pool (Block_Size => 16, Block_Count => 2);

   type Node;
   type Link is access Node with Storage_Pool => Pool;
   type Node is new Limited_Controlled with record
      Self : Link;
   end record;

   overriding procedure Finalize (X : in out Node);

   procedure Free is new Ada.Unchecked_Deallocation (Node, Link);

   A : Link;

   procedure Finalize (X : in out Node) is
   begin
      Put_Line ("the node frees itself");
      Free (X.Self);
      Put_Line ("freed");
   end Finalize;
begin
   A := new Node;
   A.Self := A;
   Free (A);
end Self_Free;
