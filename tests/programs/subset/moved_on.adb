--  A handle moves on to the next node. By way of another handle it is right. Straight from the node that it leads to, the value is read,
--  and then the target is finalized, which frees the nodes: the adjustment uses one that is gone, and stops the run. With an anonymous
--  object, which is adjusted first, it would be right as well; the manual lets an implementation do without one (RM 7.6(17), 7.6(21)).
with Ada.Finalization; use Ada.Finalization;
with Ada.Text_IO;      use Ada.Text_IO;
with Ada.Unchecked_Deallocation;

procedure Moved_On is
   type Node;
   type Link is access Node;

   type Handle is new Controlled with record
      To : Link;
   end record;

   overriding procedure Adjust (X : in out Handle);
   overriding procedure Finalize (X : in out Handle);

   type Node is record
      Number : Integer;
      Count  : Integer;
      Next   : Handle;
   end record;

   procedure Free is new Ada.Unchecked_Deallocation (Node, Link);

   procedure Adjust (X : in out Handle) is
   begin
      if X.To /= null then
         X.To.Count := X.To.Count + 1;
      end if;
   end Adjust;

   procedure Finalize (X : in out Handle) is
   begin
      if X.To /= null then
         X.To.Count := X.To.Count - 1;
         if X.To.Count = 0 then
            Put_Line ("node" & Integer'Image (X.To.Number) & " goes");
            Free (X.To);
         end if;
      end if;
      X.To := null;
   end Finalize;

   procedure Make (X : in out Handle; Number : Integer) is
   begin
      X.To := new Node;
      X.To.Number := Number;
      X.To.Count := 1;
   end Make;

   Head : Handle;
begin
   Make (Head, 1);
   Make (Head.To.Next, 2);
   Make (Head.To.Next.To.Next, 3);
   declare
      Next : Handle := Head.To.Next;
   begin
      Head := Next;
   end;
   Put_Line ("at" & Integer'Image (Head.To.Number));
   Head := Head.To.Next;
   Put_Line ("at" & Integer'Image (Head.To.Number));
end Moved_On;
